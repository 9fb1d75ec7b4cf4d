//! Bytes that pass whole in shift-register mode, counted from what each clock did.

use crate::clock::ClockReport;
use crate::pins::{level, rises, PIN_PA4, PIN_RES};
use crate::serial::{shift_receiver_on, shift_sender_on, SCSR_EMPTY};
use crate::state::State;

/// A byte is whole where it was seen from its beginning: its take, or its first rise.
#[derive(Clone, Default)]
pub struct ShiftedBytes {
    pub sent: u64,
    pub received: u64,
    /// Bits sent since a take; none before the first.
    bits_sent: Option<u8>,
    /// Rises since one with no bits left; none before the first.
    bits_received: Option<u8>,
}

/// What a tick does to a sender.
#[derive(Clone, Copy, PartialEq, Eq, Debug)]
pub struct SenderTick {
    /// A bit is shifted out.
    pub shift: bool,
    /// It was the last.
    pub end: bool,
    /// A byte is taken.
    pub take: bool,
}

/// The tick of a sender on a clock, if it has one. `before` is the state before the clock.
pub fn sender_tick(before: &State, after: &State, report: &ClockReport) -> Option<SenderTick> {
    if !report.met.underflow_a || !level(after.last, PIN_RES) || !shift_sender_on(before.sccr) {
        return None;
    }
    let shift = before.transmitter.bits_left > 0 && before.transmitter.phase % 2 == 1;
    let end = shift && before.transmitter.bits_left == 1;
    let idle = before.transmitter.bits_left == 0;
    Some(SenderTick { shift, end, take: (idle || end) && before.scsr & SCSR_EMPTY == 0 })
}

/// Whether a receiver in shift-register mode shifts on a clock.
pub fn receiver_shift(before: &State, after: &State) -> bool {
    let rise = level(rises(before.last, after.last), PIN_PA4);
    rise && level(after.last, PIN_RES) && shift_receiver_on(before.sccr)
}

impl ShiftedBytes {
    /// A new start: what is under way was not seen from its beginning.
    pub fn start(&mut self) {
        self.bits_sent = None;
        self.bits_received = None;
    }

    /// A done clock.
    pub fn clock(&mut self, before: &State, after: &State, report: &ClockReport) {
        if let Some(tick) = sender_tick(before, after, report) {
            if tick.shift {
                self.bits_sent = self.bits_sent.map(|bits| bits + 1);
            }
            self.sent += u64::from(tick.end && self.bits_sent == Some(8));
            if tick.take {
                self.bits_sent = Some(0);
            } else if tick.end {
                self.bits_sent = None;
            }
        }
        if receiver_shift(before, after) {
            let first = before.receiver.bits_left == 0;
            self.bits_received = if first { Some(1) } else { self.bits_received.map(|bits| bits + 1) };
            let end = before.receiver.bits_left == 1;
            self.received += u64::from(end && self.bits_received == Some(8));
        }
    }

    pub fn add(&mut self, other: &ShiftedBytes) {
        self.sent += other.sent;
        self.received += other.received;
    }
}
