//! How often each kind of call with page sums (document 02, U7) occurred.

use super::{Coverage, Kind};
use crate::scenario::{Call, Scenario};
use plain_clock::accesses::{Access, AccessKind};
use plain_clock::sums::{refusal_by_length, right, PAGES};
use plain_clock::{refusal, run, ClockReport, Outcome, State, World};

/// What kinds are judged by.
#[derive(Clone, Default)]
pub struct Sums {
    /// The scenario's sums are all right, as far as the calls show: one that lacks them and changes a byte makes them
    /// wrong.
    right: bool,
    /// In the present list a call was with sums, lacked them, was refused with 13.
    with_before: bool,
    lacking_before: bool,
    refused_before: bool,
    /// What the present call is lent, and the entries before it.
    lent: Option<usize>,
    before: Vec<u16>,
    call: Changes,
}

/// What the present call does to the bytes.
#[derive(Clone, Default)]
struct Changes {
    /// The pages of which a byte is changed, by a write of another value.
    pages: Vec<u16>,
    twice: bool,
    same: bool,
    register: bool,
    dropped: bool,
    /// The last clock changed a byte.
    last: bool,
}

impl Sums {
    pub fn of(scenario: &Scenario) -> Self {
        let right_at_start = |entries: &[u16]| right(&entries[..PAGES], &scenario.memory);
        let right = scenario.page_list.as_ref().is_some_and(|page_list| right_at_start(&page_list.entries));
        Sums { right, ..Sums::default() }
    }

    pub fn begin_list(&mut self) {
        (self.with_before, self.lacking_before, self.refused_before) = (false, false, false);
    }

    /// A done clock.
    pub fn clock(&mut self, before: &State, after: &State, report: &ClockReport) {
        let changes = &mut self.call;
        changes.last = false;
        if let (Some(byte), None, None) = (before.waiting, after.waiting, report.put) {
            changes.dropped |= byte.address >= 0x40;
        }
        let writes = || report.accesses.list().iter().filter(|access| access.kind == AccessKind::Write);
        for write in writes() {
            let page = write.address >> 8;
            changes.register |= write.address < 0x40;
            changes.same |= write.writes_the_same();
            if changes_byte(write) {
                changes.last = true;
                changes.twice |= writes().filter(|other| changes_byte(other) && other.address >> 8 == page).count() > 1;
                if !changes.pages.contains(&page) {
                    changes.pages.push(page);
                }
            }
        }
    }
}

fn changes_byte(access: &Access) -> bool {
    access.kind == AccessKind::Write && access.address >= 0x40 && !access.writes_the_same()
}

impl Coverage {
    /// A call, before it is done: how many sums it is lent, and the scenario's page list.
    pub fn begin_sums(&mut self, lent: Option<usize>, entries: &[u16]) {
        self.sums.lent = lent;
        self.sums.before.clear();
        self.sums.before.extend_from_slice(entries);
        self.sums.call = Changes::default();
    }

    /// A call of a scenario with a page list, after the model has done it.
    pub fn sums(&mut self, scenario: &Scenario, call: Call, outcome: &Outcome, world: &World, entries: &[u16]) {
        if scenario.page_list.is_none() {
            return;
        }
        let changed = !self.sums.call.pages.is_empty();
        match self.sums.lent {
            Some(length) if outcome.number == 13 => self.sums_refused(scenario, call, length, world),
            Some(length) if (1..=5).contains(&outcome.number) => {
                self.met_if(outcome.number > 1 && length == PAGES, Kind::SumsRefused);
                self.met_if(outcome.number == 1 && length != PAGES, Kind::SumsMemory);
            }
            Some(_) => self.sums_changed(call, outcome, world, entries),
            None => {
                self.met_if(changed && self.sums.with_before, Kind::SumsLacking);
                self.sums.right &= !changed;
                self.sums.lacking_before |= changed;
            }
        }
        self.sums.with_before |= self.sums.lent == Some(PAGES);
    }

    /// Refused with 13; what would be the number with 256 sums?
    fn sums_refused(&mut self, scenario: &Scenario, call: Call, length: usize, world: &World) {
        self.sums.refused_before = true;
        self.met_if(length == 0, Kind::SumsNone);
        self.met_if(length == 255, Kind::SumsTooFew);
        self.met_if(length == 257, Kind::SumsTooMany);
        debug_assert_eq!(refusal_by_length(world.memory.len(), length), 13);
        if scenario.byte_damage.is_some() {
            self.met(Kind::SumsFlag);
            return;
        }
        let number = refusal(
            &world.state,
            world.memory.len(),
            &world.input_clocks[world.read..],
            &world.input_codes[world.read..],
            world.output_clocks.len() - world.written,
            world.output_words.len() - world.written,
            u64::from(call.clocks()),
        );
        self.met_if(number == 2, Kind::SumsState);
        self.met_if(number == 3, Kind::SumsLists);
        self.met_if(number == 4, Kind::SumsClock);
        self.met_if(number == 5, Kind::SumsPins);
    }

    /// Not refused, with 256 sums.
    fn sums_changed(&mut self, call: Call, outcome: &Outcome, world: &World, entries: &[u16]) {
        let Sums { right, lacking_before, refused_before, .. } = self.sums;
        let Changes { pages, twice, same, register, dropped, last } = std::mem::take(&mut self.sums.call);
        let changed = !pages.is_empty();
        let number = outcome.number;
        self.met_if(call == Call::Run(0), Kind::SumsRun0);
        self.met_if(refused_before, Kind::SumsAfter13);
        self.met_if(changed && right, Kind::SumsRight);
        self.met_if(changed && !right, Kind::SumsWrong);
        self.met_if(changed && lacking_before, Kind::SumsBehindLacking);
        self.met_if(pages.len() >= 3, Kind::SumsPages);
        self.met_if(pages.contains(&0), Kind::SumsPageZero);
        self.met_if(pages.contains(&0xFF), Kind::SumsPageLast);
        self.met_if(twice, Kind::SumsTwice);
        self.met_if(same && !changed, Kind::SumsSame);
        self.met_if(register && !changed, Kind::SumsRegister);
        self.met_if(dropped, Kind::SumsDropped);
        let waits = world.state.waiting.is_some_and(|byte| byte.address >= 0x40);
        self.met_if(number == 0 && call.clocks() > 0 && waits, Kind::SumsWaiting);
        self.met_if(number == 6 && changed, Kind::SumsUndefined);
        self.met_if(number == 7 && changed, Kind::SumsFull);
        self.met_if(number == 7 && changes_with_space(world), Kind::SumsFullClock);
        self.met_if(number == 12 && last, Kind::SumsHalted);
        // Changes are far below 32,768, so that a longer way is one over the end.
        let gone = |low: &u16, high: &u16| i32::from(*high) - i32::from(*low) > 32_768;
        let both = || self.sums.before.iter().zip(entries);
        let (below, above) = (both().any(|(old, new)| gone(old, new)), both().any(|(old, new)| gone(new, old)));
        self.met_if(below, Kind::SumsBelow);
        self.met_if(above, Kind::SumsAbove);
    }

    /// A list is done, its page list being right or wrong.
    pub fn total(&mut self, right: bool) {
        self.met_if(right, Kind::SumsTotal);
    }
}

/// Whether the next clock, given an entry, changes the memory.
fn changes_with_space(world: &World) -> bool {
    let mut next = world.clone();
    next.output_clocks.push(0);
    next.output_words.push(0);
    run(&mut next, 1, None);
    next.memory != world.memory
}
