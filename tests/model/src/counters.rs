//! 01, One clock, 2: counters A and B.

use crate::pins::{level, PIN_PA4, PIN_PA5};
use crate::serial::{asynchronous_receiver_on, transmitter_on};
use crate::state::{State, Turn, PORT_A};

pub const IFR_COUNTER_A: u8 = 0x10;
pub const IFR_COUNTER_B: u8 = 0x20;
pub const PA4_BIT: u8 = 0x10;
pub const PA5_BIT: u8 = 0x20;

/// Counter modes (001, 6.1 and 6.2; 01, One clock, 2).
#[derive(Clone, Copy, PartialEq, Eq, Debug)]
pub enum Mode {
    /// 00
    Interval,
    /// 01
    Pulse,
    /// 10
    Event,
    /// 11: pulse width for A, retriggerable interval for B
    Input,
}

fn mode_of_bits(bits: u8) -> Mode {
    match bits & 3 {
        0 => Mode::Interval,
        1 => Mode::Pulse,
        2 => Mode::Event,
        _ => Mode::Input,
    }
}

/// 01, One clock, 2: "MCR1, MCR0 choose A's mode"; "SCCR7, or SCCR6 with an asynchronous receiver, holds A to mode 00".
/// A sender in shift-register mode holds it (SCCR7), a receiver in that mode does not (source document 001, 6.1.5:
/// "Counter A is not required for the RCVR S/R mode").
pub fn mode_a(state: &State) -> Mode {
    if transmitter_on(state.sccr) || asynchronous_receiver_on(state.sccr) {
        Mode::Interval
    } else {
        mode_of_bits(state.mcr)
    }
}

/// 01, One clock, 2: "MCR3, MCR2 B's".
pub fn mode_b(state: &State) -> Mode {
    mode_of_bits(state.mcr >> 2)
}

/// 01, One clock, 2, counter A. `risen` and `levels` are those of step 1. Gives whether A underflowed.
pub fn step_counter_a(state: &mut State, risen: u64, levels: u64) -> bool {
    match mode_a(state) {
        Mode::Interval => count_a(state),
        Mode::Pulse => count_a_pulse(state),
        Mode::Event => level(risen, PIN_PA4) && count_a(state),
        Mode::Input => !level(levels, PIN_PA4) && count_a(state),
    }
}

/// "Going down from 0000h is an underflow: reload from the latch, set IFR4 (A)".
fn count_a(state: &mut State) -> bool {
    if state.counter_a != 0 {
        state.counter_a -= 1;
        return false;
    }
    state.counter_a = state.latch_a;
    state.ifr |= IFR_COUNTER_A;
    true
}

/// "01 pulse, as 00, each underflow inverting PA4's (A) ... latch".
fn count_a_pulse(state: &mut State) -> bool {
    let underflow = count_a(state);
    if underflow {
        state.ports[PORT_A] ^= PA4_BIT;
    }
    underflow
}

/// 01, One clock, 2, counter B. `risen` is that of step 1. Gives whether B underflowed.
pub fn step_counter_b(state: &mut State, risen: u64) -> bool {
    match mode_b(state) {
        Mode::Interval => count_b(state),
        Mode::Pulse => count_b_pulse(state),
        Mode::Event => level(risen, PIN_PA5) && count_b(state),
        Mode::Input => step_retrigger(state, level(risen, PIN_PA5)),
    }
}

/// "Going down from 0000h is an underflow: reload from the latch, set IFR5 (B)".
fn count_b(state: &mut State) -> bool {
    if state.counter_b != 0 {
        state.counter_b -= 1;
        return false;
    }
    state.counter_b = state.latch_b;
    state.ifr |= IFR_COUNTER_B;
    true
}

/// "each underflow inverting ... PA5's latch (B)"; "B in 01 reloads from latches C and B by turns".
fn count_b_pulse(state: &mut State) -> bool {
    if !count_b(state) {
        return false;
    }
    state.ports[PORT_A] ^= PA5_BIT;
    reload_by_turn(state);
    true
}

fn reload_by_turn(state: &mut State) {
    match state.turn {
        Turn::B => {
            state.counter_b = state.latch_b;
            state.turn = Turn::C;
        }
        Turn::C => {
            state.counter_b = state.latch_c;
            state.turn = Turn::B;
        }
    }
}

/// "11 ... for B interval with reload and no count at a rise of PA5".
fn step_retrigger(state: &mut State, rise: bool) -> bool {
    if rise {
        state.counter_b = state.latch_b;
        return false;
    }
    count_b(state)
}
