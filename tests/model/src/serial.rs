//! 01, Serial channel, and 01, One clock, 3. The shift-register mode is document 02, U1, and source document 001, 5.

use crate::pins::{level, PIN_PA4, PIN_PA7};
use crate::state::State;

pub const SCSR_FULL: u8 = 0x01;
pub const SCSR_OVERRUN: u8 = 0x02;
pub const SCSR_PARITY: u8 = 0x04;
pub const SCSR_FRAMING: u8 = 0x08;
pub const SCSR_END: u8 = 0x20;
pub const SCSR_EMPTY: u8 = 0x40;
pub const SCSR_UNDERRUN: u8 = 0x80;

/// Source document 001, 5.1: "In the S/R mode, eight data bits are always shifted out."; 5.2: "8 bits of serial data".
const SHIFTED_BITS: u8 = 8;

/// 01, Serial channel: "Transmitter (SCCR7)".
pub fn transmitter_on(sccr: u8) -> bool {
    sccr & 0x80 != 0
}

/// 01, Serial channel: "Receiver (SCCR6)".
pub fn receiver_on(sccr: u8) -> bool {
    sccr & 0x40 != 0
}

/// The transmitter's mode, on or off. 01, Registers: "SCCR5: transmitter shifts".
pub fn transmitter_shifts(sccr: u8) -> bool {
    sccr & 0x20 != 0
}

/// The receiver's mode, on or off. 01, Registers: "SCCR5: transmitter shifts; else SCCR4: receiver shifts". So the two
/// never shift at once.
pub fn receiver_shifts(sccr: u8) -> bool {
    !transmitter_shifts(sccr) && sccr & 0x10 != 0
}

/// Document 02, U1: "a sender".
pub fn shift_sender_on(sccr: u8) -> bool {
    transmitter_on(sccr) && transmitter_shifts(sccr)
}

/// Document 02, U1: "A receiver".
pub fn shift_receiver_on(sccr: u8) -> bool {
    receiver_on(sccr) && receiver_shifts(sccr)
}

/// On and not in shift-register mode.
pub fn asynchronous_transmitter_on(sccr: u8) -> bool {
    transmitter_on(sccr) && !transmitter_shifts(sccr)
}

/// On and not in shift-register mode. 01, One clock, 2: "SCCR6 with an asynchronous receiver".
pub fn asynchronous_receiver_on(sccr: u8) -> bool {
    receiver_on(sccr) && !receiver_shifts(sccr)
}

/// 01, Registers: "SCCR3, SCCR2 00 to 11: 8, 7, 6, 5 bits".
pub fn data_bits(sccr: u8) -> u8 {
    8 - (sccr >> 2 & 3)
}

/// 01, Registers: "SCCR1 parity".
pub fn parity_enabled(sccr: u8) -> bool {
    sccr & 0x02 != 0
}

/// 01, Registers: "SCCR0 even"; clear is odd (DECISIONS). The parity bit that makes the ones of `data` and itself so.
pub fn parity_bit(sccr: u8, data: u8) -> u8 {
    let odd_ones = (data.count_ones() & 1) as u8;
    if sccr & 0x01 != 0 {
        odd_ones
    } else {
        odd_ones ^ 1
    }
}

fn data_mask(sccr: u8) -> u8 {
    0xFF >> (8 - data_bits(sccr))
}

/// "While bits are left, bit 0 is the line"; high when idle. It is so in both modes: "lines high on under-run"
/// (document 02, U1; source document 001, 5.1: "the SO output and shift clock are held in a high state").
pub fn transmitter_line(state: &State) -> bool {
    state.transmitter.bits_left == 0 || state.transmitter.register & 1 == 1
}

/// Document 02, U1: "PA4's drive is its clock, low at even phases while bits are left, else high".
pub fn shift_clock(state: &State) -> bool {
    state.transmitter.bits_left == 0 || state.transmitter.phase % 2 == 1
}

/// 01, One clock, 3: "Serial, at each underflow of A; that is a tick."; document 02, U1: "A receiver in step 3 shifts
/// PA7 into bit 10 at each rise of PA4", tick or not. `risen` and `levels` are those of step 1.
pub fn step_serial(state: &mut State, tick: bool, risen: u64, levels: u64) {
    let line = level(levels, PIN_PA7);
    if tick && transmitter_on(state.sccr) {
        transmitter_tick(state);
    }
    if tick && asynchronous_receiver_on(state.sccr) {
        receiver_tick(state, line);
    }
    if level(risen, PIN_PA4) && shift_receiver_on(state.sccr) {
        receiver_rise(state, line);
    }
}

/// Asynchronous: "from 15 to 0 shifts the register down"; document 02, U1: "shifted at each tick that makes the phase
/// even".
fn ticks_per_bit(sccr: u8) -> u8 {
    if transmitter_shifts(sccr) {
        2
    } else {
        16
    }
}

/// 01, Serial channel, "Transmitter (SCCR7): ..."; document 02, U1: "a sender goes by 01's transmitter rule".
fn transmitter_tick(state: &mut State) {
    if state.transmitter.bits_left == 0 {
        if state.scsr & SCSR_EMPTY == 0 {
            take_data(state);
        }
        return;
    }
    state.transmitter.phase = (state.transmitter.phase + 1) % 16;
    if state.transmitter.phase % ticks_per_bit(state.sccr) == 0 {
        end_transmitted_bit(state);
    }
}

/// "shifts the register down, one bit fewer left"; "None left: it takes the next data that tick, or sets SCSR7."
fn end_transmitted_bit(state: &mut State) {
    state.transmitter.register >>= 1;
    state.transmitter.bits_left -= 1;
    if state.transmitter.bits_left > 0 {
        return;
    }
    if state.scsr & SCSR_EMPTY == 0 {
        take_data(state);
    } else {
        state.scsr |= SCSR_UNDERRUN;
    }
}

/// "it takes the data, sets SCSR6, phase 0, register and bits left to a frame". A take clears SCSR7 (001, 5.3).
fn take_data(state: &mut State) {
    let (register, bits_left) = taken_bits(state.sccr, state.data_sent);
    state.scsr |= SCSR_EMPTY;
    state.scsr &= !SCSR_UNDERRUN;
    state.transmitter.phase = 0;
    state.transmitter.register = register;
    state.transmitter.bits_left = bits_left;
}

/// A frame, or in shift-register mode "its frame the byte alone" (document 02, U1), whatever SCCR0 to SCCR3 are (source
/// document 001, 5.1: "Bits/character and parity control bits are ignored").
fn taken_bits(sccr: u8, data: u8) -> (u16, u8) {
    if transmitter_shifts(sccr) {
        (u16::from(data), SHIFTED_BITS)
    } else {
        frame(sccr, data)
    }
}

/// "a frame: start 0, data lowest bit first, parity, stops, bit 0 first"; "Two stops without parity; with it ... one".
pub fn frame(sccr: u8, data: u8) -> (u16, u8) {
    let mut register = 0u16;
    let mut length = 1u8;
    let sent = data & data_mask(sccr);
    for bit in 0..data_bits(sccr) {
        register |= u16::from(sent >> bit & 1) << length;
        length += 1;
    }
    if parity_enabled(sccr) {
        register |= u16::from(parity_bit(sccr, sent)) << length;
        length += 1;
    }
    let stops = if parity_enabled(sccr) { 1 } else { 2 };
    for _ in 0..stops {
        register |= 1 << length;
        length += 1;
    }
    (register, length)
}

/// 01, Serial channel, "Receiver (SCCR6): looks at PA7 every second tick, where half returns to 0 (a sub-interval)."
fn receiver_tick(state: &mut State, line: bool) {
    if state.receiver.half == 0 {
        state.receiver.half = 1;
        return;
    }
    state.receiver.half = 0;
    if state.receiver.bits_left == 0 {
        look_for_start(state, line);
    } else {
        look_in_character(state, line);
    }
}

/// "With no bits left, sub-interval counts lows running, a high zeroes it; a low at 3 or more makes a start:
/// sub-interval 0, bits left data + parity + one stop."
fn look_for_start(state: &mut State, line: bool) {
    if line {
        state.receiver.sub_interval = 0;
    } else if state.receiver.sub_interval < 3 {
        state.receiver.sub_interval += 1;
    } else {
        let parity = u8::from(parity_enabled(state.sccr));
        state.receiver.sub_interval = 0;
        state.receiver.bits_left = data_bits(state.sccr) + parity + 1;
    }
}

/// "Then each eighth look, from 7 to 0, shifts the level into bit 10, one bit fewer left."
fn look_in_character(state: &mut State, line: bool) {
    if state.receiver.sub_interval < 7 {
        state.receiver.sub_interval += 1;
        return;
    }
    state.receiver.sub_interval = 0;
    shift_in(state, line);
    if state.receiver.bits_left == 0 {
        end_character(state);
    }
}

/// "shifts the level into bit 10, one bit fewer left", in both modes.
fn shift_in(state: &mut State, line: bool) {
    state.receiver.register = state.receiver.register >> 1 | u16::from(line) << 10;
    state.receiver.bits_left -= 1;
}

/// "At the last, by SCCR then, bit 10 is the stop, parity and data below it".
fn end_character(state: &mut State) {
    let (data, faults) = judge_character(state.sccr, state.receiver.register);
    receive(state, data, faults);
}

/// Document 02, U1: "at each rise of PA4, a rise with no bits left first making them 8; at the last the byte is bits 3
/// to 10". SCSR2 and SCSR3 are of the asynchronous mode alone (source document 001, 5.3).
fn receiver_rise(state: &mut State, line: bool) {
    if state.receiver.bits_left == 0 {
        state.receiver.bits_left = SHIFTED_BITS;
    }
    shift_in(state, line);
    if state.receiver.bits_left == 0 {
        receive(state, (state.receiver.register >> 3) as u8, 0);
    }
}

/// "if SCSR0 is clear the byte (high bits 0) is kept and SCSR0 set; else SCSR1 is set. Wrong parity sets SCSR2, a low
/// stop SCSR3." SCSR0 is not set where the character has a fault (001, 5.3, SCSR 0); the byte is still kept
/// (DECISIONS). Document 02, U1: "with SCSR0 or SCSR1 as in 01".
fn receive(state: &mut State, data: u8, faults: u8) {
    if state.scsr & SCSR_FULL != 0 {
        state.scsr |= SCSR_OVERRUN;
    } else {
        state.data_received = data;
        if faults == 0 {
            state.scsr |= SCSR_FULL;
        }
    }
    state.scsr |= faults;
}

/// The data bits and the fault bits (SCSR2, SCSR3) of the receiver's register.
pub fn judge_character(sccr: u8, register: u16) -> (u8, u8) {
    let mut faults = 0;
    if register >> 10 & 1 == 0 {
        faults |= SCSR_FRAMING;
    }
    let above_data = if parity_enabled(sccr) { 9 } else { 10 };
    let data = (register >> (above_data - data_bits(sccr))) as u8 & data_mask(sccr);
    if parity_enabled(sccr) && (register >> 9 & 1) as u8 != parity_bit(sccr, data) {
        faults |= SCSR_PARITY;
    }
    (data, faults)
}
