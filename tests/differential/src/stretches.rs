//! Firmware by stretches: some hundred clocks, cut at every clock, with a halt and with full output space at every
//! clock, against the model's plain clocks; and long runs between them.

mod cases;
mod pair;
mod places;

use cases::{cases, Case};
use differential::random::Random;
use pair::{Call, Pair};
use places::Places;
use plain_clock::accesses::AccessKind;
use plain_clock::plain;
use std::path::Path;

/// The clocks of a stretch.
const LENGTH: u32 = 300;

/// The clocks behind a break's low stop, in a stretch from its start bit on.
const AFTER_LOW_STOP: u32 = 50;

/// The clocks, from fresh on, in which stretches are looked for.
const LOOKED_AT: u32 = 60_000;

/// The clocks of a case by runs of any length.
const LONG: u32 = 1_000_000;

/// More free entries than a stretch writes.
const SPACE: usize = 400;

/// No firmware here writes below its image and above its variables and stack.
const NEVER_WRITTEN: u16 = 0x07FF;

/// The longest pieces that a stretch is done in.
const LONGEST_PIECE: u32 = 40;

/// What was done with a case.
pub struct Counts {
    pub stretches: usize,
    pub calls: u64,
}

/// Every case by stretches, with images from the folder `made`. `told` gets each case's name and counts.
pub fn check_stretches(made: &Path, seed: u64, times: u32, mut told: impl FnMut(&str, &Counts)) -> Result<(), String> {
    let mut met = Places::new();
    for (index, case) in cases().iter().enumerate() {
        let random = &Random::new(seed, index as u64);
        let checked = check_case(case, made, random, times, &mut met);
        told(&case.name, &checked.map_err(|text| format!("{}: {text}", case.name))?);
    }
    match met.missing() {
        Some(kind) => Err(format!("no firmware meets {kind}")),
        None => Ok(()),
    }
}

/// What the case meets is added to `met`.
fn check_case(case: &Case, made: &Path, random: &Random, times: u32, met: &mut Places) -> Result<Counts, String> {
    let (memory, inputs) = (case.memory(made)?, case.inputs(random, LONG));
    let places = places(Pair::new(memory.clone(), inputs.clone()))?;
    met.add(&places);
    let mut spans: Vec<Span> = places
        .starts(random, LENGTH, times, LOOKED_AT)
        .into_iter()
        .map(|start| Span { start, length: LENGTH, whole: true })
        .collect();
    if let (Some(length), Some(low_stop)) = (case.break_clocks(), places.low_stop(random)) {
        spans.push(Span { start: low_stop.saturating_sub(length), length: length + AFTER_LOW_STOP, whole: false });
        spans.sort_unstable_by_key(|span| span.start);
    }
    let mut pair = Pair::new(memory, inputs);
    let mut stretch = Stretch::new();
    for span in &spans {
        go_to(&mut pair, span.start)?;
        stretch.check(&pair, span).map_err(|text| format!("stretch from clock {}: {text}", span.start))?;
    }
    while pair.clock() < LONG {
        let longest = 1 << random.between(1, 15);
        let to = pair.clock() + random.between(1, longest).min(LONG - pair.clock());
        go_to(&mut pair, to)?;
    }
    Ok(Counts { stretches: spans.len(), calls: stretch.calls() + pair.calls })
}

/// What the model meets.
fn places(mut pair: Pair) -> Result<Places, String> {
    let mut places = Places::new();
    pair.set_free(LOOKED_AT as usize);
    for _ in 0..LOOKED_AT {
        let before = pair.world.state.clone();
        let report = plain(&mut pair.world, None).ok_or_else(|| format!("the model stops with {}", pair.world.stop))?;
        places.look(&before, &pair.world.state, &report);
    }
    Ok(places)
}

/// A run to a clock, with space for each of its records.
fn go_to(pair: &mut Pair, clock: u32) -> Result<(), String> {
    let n = clock - pair.clock();
    pair.drop_past();
    pair.set_free(n as usize + 1);
    let outcome = pair.call(Call::Run(n), None)?;
    pair.drop_past();
    match outcome.number {
        0 => Ok(()),
        number => Err(format!("both sides stop with {number}")),
    }
}

/// Where a stretch lies; one that is not whole is cut at every clock and nothing else.
struct Span {
    start: u32,
    length: u32,
    whole: bool,
}

/// One stretch: both sides at its start, after some of its clocks, and where a list of calls has got to.
struct Stretch {
    start: Pair,
    walked: Pair,
    now: Pair,
    end: u32,
    /// The address of the first write after so many clocks, none where no more follow.
    next_write: Vec<Option<u16>>,
}

impl Stretch {
    fn new() -> Stretch {
        let none = || Pair::new(Vec::new(), Default::default());
        Stretch { start: none(), walked: none(), now: none(), end: 0, next_write: Vec::new() }
    }

    fn calls(&self) -> u64 {
        self.walked.calls + self.now.calls
    }

    /// All lists of calls over the stretch, which begins where `from` is.
    fn check(&mut self, from: &Pair, span: &Span) -> Result<(), String> {
        self.start.copy_from(from);
        self.end = span.start + span.length;
        self.start.keep_inputs(self.end);
        self.start.set_free(SPACE);
        for k in 0..=span.length {
            self.check_cut(k).map_err(|text| format!("cut after {k} clocks: {text}"))?;
        }
        if span.whole {
            self.look_for_writes(span.length);
            self.check_walked(span.length)?;
            self.check_lists()?;
        }
        Ok(())
    }

    /// What follows k single clocks, for every k.
    fn check_walked(&mut self, length: u32) -> Result<(), String> {
        self.walked.copy_from(&self.start);
        for k in 0..=length {
            self.check_after(k).map_err(|text| format!("after {k} single clocks: {text}"))?;
            if k < length {
                // a single clock by either call
                let call = if k % 2 == 1 { Call::Step } else { Call::Run(1) };
                self.walked.call(call, None).map_err(|text| format!("single clock {}: {text}", k + 1))?;
            }
        }
        Ok(())
    }

    /// What goes over the whole stretch.
    fn check_lists(&mut self) -> Result<(), String> {
        for k in 2..=LONGEST_PIECE {
            self.check_pieces(k).map_err(|text| format!("in pieces of {k} clocks: {text}"))?;
        }
        self.check_one_entry_each().map_err(|text| format!("with one free entry at a time: {text}"))?;
        let mut addresses: Vec<u16> = self.next_write.iter().flatten().copied().collect();
        addresses.sort_unstable();
        addresses.dedup();
        for address in addresses {
            self.check_halts(address).map_err(|text| format!("with the halt address {address:04X}h: {text}"))?;
        }
        Ok(())
    }

    /// What the stretch's clocks write, by the model.
    fn look_for_writes(&mut self, length: u32) {
        self.now.copy_from(&self.start);
        let mut written = Vec::new();
        for _ in 0..length {
            let Some(report) = plain(&mut self.now.world, None) else { break };
            let writes = report.accesses.list().iter().filter(|access| access.kind == AccessKind::Write);
            written.push(writes.map(|access| access.address).next());
        }
        let mut next = None;
        self.next_write.clear();
        for address in written.iter().rev() {
            next = address.or(next);
            self.next_write.push(next);
        }
        self.next_write.reverse();
        self.next_write.push(None);
    }

    /// A run to the stretch's end.
    fn rest(&mut self, halt: Option<u16>) -> Result<u8, String> {
        let n = self.end - self.now.clock();
        Ok(self.now.call(Call::Run(n), halt)?.number)
    }

    /// The stretch cut after k clocks, by two runs; for odd k both have sums.
    fn check_cut(&mut self, k: u32) -> Result<(), String> {
        self.now.copy_from(&self.start);
        if k % 2 == 1 {
            self.now.call_with_sums(Call::Run(k), None)?;
            self.now.call_with_sums(Call::Run(self.end - self.now.clock()), None)?;
        } else {
            self.now.call(Call::Run(k), None)?;
            self.rest(None)?;
        }
        Ok(())
    }

    /// After k single clocks: the rest whole; a halt at the next write, and the rest; full output space, and the rest.
    fn check_after(&mut self, k: u32) -> Result<(), String> {
        self.now.copy_from(&self.walked);
        self.rest(None)?;

        self.now.copy_from(&self.walked);
        let halt = self.next_write[k as usize].unwrap_or(NEVER_WRITTEN);
        if self.rest(Some(halt))? != 0 {
            self.rest(None)?;
        }

        self.now.copy_from(&self.walked);
        self.now.set_free(0);
        if self.rest(None)? != 0 {
            self.now.call(Call::Step, None)?;
            self.now.set_free(SPACE);
            self.rest(None)?;
        }
        Ok(())
    }

    fn check_pieces(&mut self, k: u32) -> Result<(), String> {
        self.now.copy_from(&self.start);
        while self.now.clock() < self.end {
            let n = k.min(self.end - self.now.clock());
            self.now.call(Call::Run(n), None)?;
        }
        Ok(())
    }

    /// Stop 7 at each record, with one entry more after it.
    fn check_one_entry_each(&mut self) -> Result<(), String> {
        self.now.copy_from(&self.start);
        self.now.set_free(0);
        while self.rest(None)? != 0 {
            self.now.set_free(1);
        }
        Ok(())
    }

    /// Stop 12 at each write of an address.
    fn check_halts(&mut self, address: u16) -> Result<(), String> {
        self.now.copy_from(&self.start);
        while self.rest(Some(address))? != 0 {}
        Ok(())
    }
}
