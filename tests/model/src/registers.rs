//! 01, Registers: reads and writes at 00h to 3Fh.

use crate::counters::{mode_a, mode_b, Mode, IFR_COUNTER_A, IFR_COUNTER_B, PA4_BIT, PA5_BIT};
use crate::serial::{receiver_on, receiver_shifts, transmitter_on, transmitter_shifts};
use crate::serial::{SCSR_EMPTY, SCSR_END, SCSR_UNDERRUN};
use crate::state::{fresh_receiver, fresh_transmitter, State, Turn, PORT_A};

/// 01, Machine state: "Its bytes at 0 to 3Fh, the registers".
pub const REGISTERS_END: u16 = 0x40;

/// 01, Registers: "IFR6 is SCSR0 or 1 or 2 or 3. IFR7 is SCSR6 and (not SCSR5, or SCSR7)." Bits 0 to 5 are stored.
pub fn interrupt_flags(state: &State) -> u8 {
    let receiver = state.scsr & 0x0F != 0;
    let empty = state.scsr & SCSR_EMPTY != 0;
    let end = state.scsr & SCSR_END != 0;
    let underrun = state.scsr & SCSR_UNDERRUN != 0;
    let transmitter = empty && (!end || underrun);
    state.ifr | u8::from(receiver) << 6 | u8::from(transmitter) << 7
}

/// The byte that a plain read of a register gives.
pub fn register_value(state: &State, register: u8) -> u8 {
    match register {
        // "Ports 00h to 03h: read step 1's levels"
        0x00..=0x03 => (state.last >> (8 * register)) as u8,
        // "IFR reads at 11h; IER 12h, MCR 14h, SCCR 15h"
        0x11 => interrupt_flags(state),
        0x12 => state.ier,
        0x14 => state.mcr,
        0x15 => state.sccr,
        0x16 => state.scsr,
        0x17 => state.data_received,
        // 001, 6.1: 0018 and 001A read the Lower Counter A, 0019 the Upper
        0x18 | 0x1A => state.counter_a as u8,
        0x19 => (state.counter_a >> 8) as u8,
        // 001, 6.2: 001C and 001E read the Lower Counter B, 001D the Upper
        0x1C | 0x1E => state.counter_b as u8,
        0x1D => (state.counter_b >> 8) as u8,
        // "10h reads FFh"; 01, Machine state: "unassigned registers read FFh"
        _ => 0xFF,
    }
}

/// 01, Registers: "reading 18h or 1Ch clears the flag"; "Data 17h: reading clears SCSR0 to 3".
fn read_effect(state: &mut State, register: u8) {
    match register {
        0x17 => state.scsr &= 0xF0,
        0x18 => state.ifr &= !IFR_COUNTER_A,
        0x1C => state.ifr &= !IFR_COUNTER_B,
        _ => {}
    }
}

/// A read of a register by any instruction but read-modify-write ones.
pub fn read_register(state: &mut State, register: u8) -> u8 {
    let value = register_value(state, register);
    read_effect(state, register);
    value
}

/// 001, 4.1: "During the Read cycle of a Read/Modify/Write instruction the Port I/O register is read."
pub fn read_register_to_modify(state: &mut State, register: u8) -> u8 {
    if register <= 3 {
        state.ports[usize::from(register)]
    } else {
        read_register(state, register)
    }
}

/// A write of a register, with its effects.
pub fn write_register(state: &mut State, register: u8, value: u8) {
    match register {
        // "Ports 00h to 03h: ... write latches"
        0x00..=0x03 => state.ports[usize::from(register)] = value,
        // "zeros written there clear IFR bits 0 to 3"
        0x10 => state.ifr &= value | 0xF0,
        0x12 => state.ier = value,
        0x14 => write_mcr(state, value),
        0x15 => write_sccr(state, value),
        // "SCSR (16h): bits 4, 5 can be written"
        0x16 => state.scsr = state.scsr & 0xCF | value & 0x30,
        0x17 => write_serial_data(state, value),
        0x18 => state.latch_a = with_lower(state.latch_a, value),
        0x19 => state.latch_a = with_upper(state.latch_a, value),
        0x1A => write_upper_latch_a_and_load(state, value),
        0x1C => state.latch_b = with_lower(state.latch_b, value),
        0x1D => write_upper_latch_b_and_copy(state, value),
        0x1E => write_upper_latch_b_and_load(state, value),
        // 01, Machine state: "unassigned registers ... ignore writes"; 11h has no write (001, C.1)
        _ => {}
    }
}

fn with_lower(word: u16, value: u8) -> u16 {
    word & 0xFF00 | u16::from(value)
}

fn with_upper(word: u16, value: u8) -> u16 {
    word & 0x00FF | u16::from(value) << 8
}

/// 001, 6.1.2: "The CA output is initialized high when entering the mode". `before` is A's mode in force before the
/// write.
fn enter_pulse_mode_a(state: &mut State, before: Mode) {
    if before != Mode::Pulse && mode_a(state) == Mode::Pulse {
        state.ports[PORT_A] |= PA4_BIT;
    }
}

fn write_mcr(state: &mut State, value: u8) {
    let before = mode_a(state);
    state.mcr = value;
    enter_pulse_mode_a(state, before);
}

/// 01, Serial channel: "Writing SCCR zeroes the progress of each half that the new value has off or in shift-register
/// mode."; document 02, U1: "A write of SCCR that changes a half's mode zeroes its progress too."
fn write_sccr(state: &mut State, value: u8) {
    let (mode_before, before) = (mode_a(state), state.sccr);
    state.sccr = value;
    if !transmitter_on(value) || transmitter_shifts(value) || transmitter_shifts(value) != transmitter_shifts(before) {
        state.transmitter = fresh_transmitter();
    }
    if !receiver_on(value) || receiver_shifts(value) || receiver_shifts(value) != receiver_shifts(before) {
        state.receiver = fresh_receiver();
    }
    enter_pulse_mode_a(state, mode_before);
}

/// "Data 17h: ... writing clears SCSR6, SCSR7"; SCSR5 too (001, 5.3).
fn write_serial_data(state: &mut State, value: u8) {
    state.data_sent = value;
    state.scsr &= !(SCSR_EMPTY | SCSR_UNDERRUN | SCSR_END);
}

/// "writing 1Ah ... sets the upper latch, loads the counter, clears the flag"; "in mode 01, 1Ah inverts PA4's latch".
fn write_upper_latch_a_and_load(state: &mut State, value: u8) {
    state.latch_a = with_upper(state.latch_a, value);
    state.counter_a = state.latch_a;
    state.ifr &= !IFR_COUNTER_A;
    if mode_a(state) == Mode::Pulse {
        state.ports[PORT_A] ^= PA4_BIT;
    }
}

/// "1Dh copies latch B to C too" (001, C.1: Upper Latch B, Latch C from Latch B).
fn write_upper_latch_b_and_copy(state: &mut State, value: u8) {
    state.latch_b = with_upper(state.latch_b, value);
    state.latch_c = state.latch_b;
}

/// "writing ... 1Eh sets the upper latch, loads the counter, clears the flag"; "in mode 01 ... 1Eh clears PA5's and
/// makes the turn C (001, 6.2.2)".
fn write_upper_latch_b_and_load(state: &mut State, value: u8) {
    state.latch_b = with_upper(state.latch_b, value);
    state.counter_b = state.latch_b;
    state.ifr &= !IFR_COUNTER_B;
    if mode_b(state) == Mode::Pulse {
        state.ports[PORT_A] &= !PA5_BIT;
        state.turn = Turn::C;
    }
}
