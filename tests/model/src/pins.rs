//! 01, Pin lists, and 01, One clock, 1 (levels, edges, RES).

use crate::counters::PA4_BIT;
use crate::serial::{shift_clock, shift_sender_on, transmitter_line, transmitter_on};
use crate::state::{fresh, fresh_receiver, fresh_transmitter, State, PORT_A, PORT_D};

pub const PIN_PA4: u32 = 4;
pub const PIN_PA5: u32 = 5;
pub const PIN_PA7: u32 = 7;
pub const PIN_NMI: u32 = 32;
pub const PIN_RES: u32 = 33;

const PA6_BIT: u8 = 0x40;

/// Level of one pin in a set of levels.
pub fn level(levels: u64, pin: u32) -> bool {
    levels >> pin & 1 == 1
}

/// Pins that were low before and are high now, as a set.
pub fn rises(before: u64, now: u64) -> u64 {
    !before & now
}

/// Pins that were high before and are low now, as a set.
pub fn falls(before: u64, now: u64) -> u64 {
    before & !now
}

/// 01, Pin lists: "A pin's drive ... is its port latch; but PA6 is the transmitter's line (high when idle) while SCCR7
/// is set"; document 02, U1: "PA4's drive is its clock", while the transmitter is on and shifts.
fn drive_port_a(state: &State) -> u8 {
    let mut drive = state.ports[PORT_A];
    if transmitter_on(state.sccr) {
        drive = with_bit(drive, PA6_BIT, transmitter_line(state));
    }
    if shift_sender_on(state.sccr) {
        drive = with_bit(drive, PA4_BIT, shift_clock(state));
    }
    drive
}

fn with_bit(byte: u8, bit: u8, high: bool) -> u8 {
    if high {
        byte | bit
    } else {
        byte & !bit
    }
}

/// 01, Pin lists: "port D counts as FFh while MCR makes it an input"; 01, Registers: "MCR5: port D output".
fn drive_port_d(state: &State) -> u8 {
    if state.mcr & 0x20 == 0 {
        0xFF
    } else {
        state.ports[PORT_D]
    }
}

/// The driven word: "PA0 in bit 0, PD7 in bit 31".
pub fn driven_word(state: &State) -> u32 {
    u32::from_le_bytes([drive_port_a(state), state.ports[1], state.ports[2], drive_port_d(state)])
}

/// 01, One clock, 1: "A port pin's level is its drive AND its external level." NMI and RES have no drive.
pub fn pin_levels(state: &State) -> u64 {
    let drive = 3u64 << 32 | u64::from(driven_word(state));
    drive & state.external
}

/// 01, Pin lists: one entry of the input list sets one external level.
pub fn set_external(state: &mut State, code: u8) {
    let pin = u32::from(code & 0x3F);
    if code & 0x40 != 0 {
        state.external |= 1 << pin;
    } else {
        state.external &= !(1 << pin);
    }
}

/// 01, One clock, 1: "rise on PA0, PA1 sets IFR0, IFR1; fall on PA2, PA3 sets IFR2, IFR3; fall on NMI sets NMI due".
pub fn detect_edges(state: &mut State, levels: u64) {
    let risen = rises(state.last, levels);
    let fallen = falls(state.last, levels);
    state.ifr |= (risen & 0x03) as u8;
    state.ifr |= (fallen & 0x0C) as u8;
    if level(fallen, PIN_NMI) {
        state.nmi_due = true;
    }
}

/// 01, One clock, 1: "RES low puts the fresh values of port latches, MCR, SCCR, SCSR, IER, IFR and serial progress,
/// drops NMI due, sets wait to 0 and makes reset due"; document 02, U6: "RES low drops a waiting byte."
pub fn apply_reset(state: &mut State) {
    let start = fresh();
    state.ports = start.ports;
    state.mcr = start.mcr;
    state.sccr = start.sccr;
    state.scsr = start.scsr;
    state.ier = start.ier;
    state.ifr = start.ifr;
    state.transmitter = fresh_transmitter();
    state.receiver = fresh_receiver();
    state.nmi_due = false;
    state.wait = 0;
    state.waiting = None;
    state.reset_due = true;
}
