//! Where stretches lie: around clocks on which something happens that can be seen, or that a long leap might pass.

use differential::random::Random;
use plain_clock::cpu::Start;
use plain_clock::{ClockReport, State};

/// What a clock is chosen for.
type Kind = fn(&State, &State, &ClockReport) -> bool;

const IFR4: u8 = 0x10;
const IFR5: u8 = 0x20;
const OVERRUN: u8 = 0x02;
const WRONG_PARITY: u8 = 0x04;
const LOW_STOP: u8 = 0x08;

/// One bit fewer, some left.
fn fewer(before: u8, after: u8) -> bool {
    after < before && after > 0
}

/// The last bit gone.
fn none_left(before: u8, after: u8) -> bool {
    before > 0 && after == 0
}

/// The bits that a clock sets.
fn set(before: u8, after: u8) -> u8 {
    after & !before
}

/// The place of the low stops among the kinds.
const LOW_STOPS: usize = 3;

const KINDS: [(&str, Kind); 20] = [
    ("a start bit", |before, after, _| before.receiver.bits_left == 0 && after.receiver.bits_left > 0),
    ("a bit received", |before, after, _| fewer(before.receiver.bits_left, after.receiver.bits_left)),
    ("a last bit received", |before, after, _| none_left(before.receiver.bits_left, after.receiver.bits_left)),
    ("a low stop", |before, after, _| set(before.scsr, after.scsr) & LOW_STOP != 0),
    ("a byte lost", |before, after, _| set(before.scsr, after.scsr) & OVERRUN != 0),
    ("wrong parity", |before, after, _| set(before.scsr, after.scsr) & WRONG_PARITY != 0),
    ("the status cleared", |before, after, _| before.scsr & 0x0F != 0 && after.scsr & 0x0F == 0),
    ("a take", |before, after, _| before.transmitter.bits_left < after.transmitter.bits_left),
    ("a bit sent", |before, after, _| fewer(before.transmitter.bits_left, after.transmitter.bits_left)),
    ("a last bit sent", |before, after, _| none_left(before.transmitter.bits_left, after.transmitter.bits_left)),
    ("IFR4 set", |before, after, _| set(before.ifr, after.ifr) & IFR4 != 0),
    ("IFR4 cleared", |before, after, _| set(after.ifr, before.ifr) & IFR4 != 0),
    ("IFR5 set", |before, after, _| set(before.ifr, after.ifr) & IFR5 != 0),
    ("both underflows", |_, _, report| report.met.underflow_a && report.met.underflow_b),
    ("a byte put on a tick", |_, _, report| report.met.underflow_a && report.put.is_some()),
    ("an input on a tick", |_, _, report| report.met.underflow_a && report.met.inputs > 0),
    ("an input", |_, _, report| report.met.inputs > 0),
    ("an interrupt's entry", |_, _, report| matches!(report.start, Some(Start::Irq | Start::Nmi))),
    ("a change of mode", |before, after, _| before.mcr != after.mcr || before.sccr != after.sccr),
    ("a record", |_, _, report| report.record),
];

/// The clocks of each kind.
pub struct Places {
    met: [Vec<u32>; KINDS.len()],
}

impl Places {
    pub fn new() -> Places {
        Places { met: [const { Vec::new() }; KINDS.len()] }
    }

    pub fn look(&mut self, before: &State, after: &State, report: &ClockReport) {
        for ((_, kind), met) in KINDS.iter().zip(&mut self.met) {
            if kind(before, after, report) {
                met.push(after.clock);
            }
        }
    }

    /// Adds the clocks that another has met.
    pub fn add(&mut self, other: &Places) {
        for (met, more) in self.met.iter_mut().zip(&other.met) {
            met.extend(more);
        }
    }

    /// The first kind that no clock is of.
    pub fn missing(&self) -> Option<&'static str> {
        KINDS.iter().zip(&self.met).find(|(_, met)| met.is_empty()).map(|((name, _), _)| *name)
    }

    /// The clock of some low stop that can be seen.
    pub fn low_stop(&self, random: &Random) -> Option<u32> {
        let met = &self.met[LOW_STOPS];
        (!met.is_empty()).then(|| met[random.below(met.len() as u32) as usize])
    }

    /// Starts of stretches of so many clocks: around the first clock of each kind, and so many times around any of its
    /// clocks; at least one stretch is anywhere up to `last`. They rise, and none lies by more than half in another.
    pub fn starts(&self, random: &Random, length: u32, times: u32, last: u32) -> Vec<u32> {
        let mut chosen = vec![random.below(last)];
        for met in self.met.iter().filter(|met| !met.is_empty()) {
            chosen.push(met[0]);
            chosen.extend((0..times).map(|_| met[random.below(met.len() as u32) as usize]));
        }
        let mut starts: Vec<u32> = Vec::new();
        for clock in chosen {
            let start = clock.saturating_sub(random.between(length / 4, length / 2));
            if starts.iter().all(|other| other.abs_diff(start) > length / 2) {
                starts.push(start);
            }
        }
        starts.sort_unstable();
        starts
    }
}
