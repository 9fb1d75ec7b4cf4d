//! One scenario on both sides: the library's calls over a list, the model's plain clocks over the same list from a copy
//! of the start, and the library's single clocks alone; then the same over the next list, where a stop ended this one.

use crate::coverage::Coverage;
use crate::scenario::{free_entries, Call, List, Scenario};
use crate::sums::{check_straight_sum, check_total};
use differential::convert::{damage_bytes, first_difference, library_state};
use differential::random::Random;
use plain_clock::sums::{change, page_sums, refusal_by_length, run_with_sums_observed, PAGES};
use plain_clock::{fresh, run_observed, ClockReport, Outcome, State, World};
use r6501q::{CallResult, Chip};

/// The library's side as a list of the scenario starts it; `world` is what that list is lent.
fn start(chip: &mut Chip, scenario: &Scenario, list: &List, world: &World) {
    chip.state = library_state_of(scenario, world);
    chip.halt = list.halt;
    copy(&mut chip.memory, &world.memory);
    lend_lists(chip, world);
}

/// The lists that are lent, nothing read or written yet.
fn lend_lists(chip: &mut Chip, world: &World) {
    chip.set_inputs(&world.input_clocks, &world.input_codes);
    chip.set_space(&world.output_clocks, &world.output_words);
}

/// One call: it gets the state and memory that the last left, the rest of the inputs and the free output space; and the
/// page list that it is lent, or none.
fn make(chip: &mut Chip, call: Call, sums: Option<&mut [u16]>) -> CallResult {
    chip.sums = sums.as_deref().map(<[u16]>::to_vec);
    let result = match call {
        Call::Step => chip.call_step(),
        Call::Run(n) => chip.call_run(n),
    };
    if let (Some(sums), Some(after)) = (sums, chip.sums.take()) {
        sums.copy_from_slice(&after);
    }
    result
}

/// Whether a call is refused: 1 to 5, and 13 (document 02, U7, "like 1 and directly after it").
pub fn is_refusal(number: u8) -> bool {
    matches!(number, 1..=5 | 13)
}

/// Whether a number ends a list: 6, 7 and 12.
pub fn is_stop(number: u8) -> bool {
    matches!(number, 6 | 7 | 12)
}

fn copy<T: Copy>(to: &mut Vec<T>, from: &[T]) {
    to.clear();
    to.extend_from_slice(from);
}

/// The model's state as the library's, with the damage that the model's cannot have. Such a state is refused and never
/// changes.
fn library_state_of(scenario: &Scenario, world: &World) -> r6501q::State {
    let mut state = library_state(&world.state);
    if let Some(found) = scenario.byte_damage {
        damage_bytes(&mut state, found.damage, found.byte);
    }
    state
}

/// What a scenario lends to its first list.
pub fn lent_first(scenario: &Scenario, world: &mut World) {
    world.state = scenario.state.clone();
    copy(&mut world.memory, &scenario.memory);
    copy(&mut world.input_clocks, &scenario.input_clocks);
    copy(&mut world.input_codes, &scenario.input_codes);
    copy(&mut world.output_clocks, &scenario.output_clocks);
    copy(&mut world.output_words, &scenario.output_words);
    (world.read, world.written, world.stop) = (0, 0, 0);
}

fn copy_world(to: &mut World, from: &World) {
    to.state = from.state.clone();
    copy(&mut to.memory, &from.memory);
    copy(&mut to.input_clocks, &from.input_clocks);
    copy(&mut to.input_codes, &from.input_codes);
    copy(&mut to.output_clocks, &from.output_clocks);
    copy(&mut to.output_words, &from.output_words);
    (to.read, to.written, to.stop) = (from.read, from.written, from.stop);
}

/// What the next list is lent: the rest of the inputs and of the free entries, and some entries more.
pub fn lent_next(list: &List, world: &mut World) {
    let (clocks, words) = free_entries(&Random::new(u64::from(list.space), 0), list.space);
    world.input_clocks.drain(..world.read);
    world.input_codes.drain(..world.read);
    world.output_clocks.drain(..world.written);
    world.output_words.drain(..world.written);
    world.output_clocks.extend(clocks);
    world.output_words.extend(words);
    (world.read, world.written, world.stop) = (0, 0, 0);
}

fn empty_world() -> World {
    World {
        state: fresh(),
        memory: Vec::new(),
        input_clocks: Vec::new(),
        input_codes: Vec::new(),
        read: 0,
        output_clocks: Vec::new(),
        output_words: Vec::new(),
        written: 0,
        stop: 0,
    }
}

/// Both sides with their buffers, which each scenario uses again.
pub struct Sides {
    library: Chip,
    walk: Chip,
    world: World,
    /// What the present list was lent.
    lent: World,
    sums: Sums,
}

/// The scenario's page list on each side, whole, and as the present list was lent it. Empty where all calls lack sums.
#[derive(Default)]
struct Sums {
    library: Vec<u16>,
    model: Vec<u16>,
    lent: Vec<u16>,
    walk: Vec<u16>,
}

/// Where the sides differ.
pub struct Difference {
    /// The list, from 0.
    pub list: usize,
    /// The call, from 0; none where the single clocks alone differ.
    pub call: Option<usize>,
    pub text: String,
}

impl Sides {
    pub fn new() -> Self {
        Sides {
            library: Chip::new(),
            walk: Chip::new(),
            world: empty_world(),
            lent: empty_world(),
            sums: Sums::default(),
        }
    }

    /// Each list in turn, as long as the one before has ended with a stop.
    pub fn check(&mut self, scenario: &Scenario, coverage: &mut Coverage) -> Result<(), Difference> {
        lent_first(scenario, &mut self.world);
        start(&mut self.library, scenario, &scenario.lists[0], &self.world);
        let entries = scenario.page_list.as_ref().map_or(&[][..], |page_list| &page_list.entries);
        copy(&mut self.sums.library, entries);
        copy(&mut self.sums.model, entries);
        coverage.scenario(scenario);
        let well_formed = scenario.byte_damage.is_none() && plain_clock::well_formed(&scenario.state);
        if self.library.state.is_well_formed() != well_formed {
            return Err(Difference { list: 0, call: Some(0), text: format!("well-formed: model {well_formed}") });
        }
        for (index, list) in scenario.lists.iter().enumerate() {
            if index > 0 {
                lent_next(list, &mut self.world);
                lend_lists(&mut self.library, &self.world);
            }
            coverage.begin_list(list.halt);
            if self.check_list(scenario, index, coverage)? == 0 {
                break;
            }
        }
        Ok(())
    }

    /// Everything that demand 3 names, after every call of a list, and then the same clocks by single clocks alone.
    /// Gives the stop that ended the list, else 0.
    fn check_list(&mut self, scenario: &Scenario, index: usize, coverage: &mut Coverage) -> Result<u8, Difference> {
        let list = &scenario.lists[index];
        copy_world(&mut self.lent, &self.world);
        copy(&mut self.sums.lent, &self.sums.model);
        self.library.halt = list.halt;
        let mut accepted = 0;
        let mut stop = 0;
        for (place, &call) in list.calls.iter().enumerate() {
            let lent = scenario.sums_lent(index, place);
            let result = make(&mut self.library, call, lent.map(|length| &mut self.sums.library[..length]));
            coverage.begin_sums(lent, &self.sums.model);
            let outcome = self.model_call(scenario, list, call, lent, coverage);
            coverage.call(call, &outcome, &self.world);
            coverage.sums(scenario, call, &outcome, &self.world, &self.sums.model);
            let different = self.call_difference(scenario, &result, &outcome).or_else(|| self.sums_difference(lent));
            if let Some(text) = different {
                return Err(Difference { list: index, call: Some(place), text });
            }
            if !is_refusal(outcome.number) {
                accepted += u64::from(call.clocks());
            }
            if is_stop(outcome.number) {
                stop = outcome.number;
                break;
            }
        }
        self.check_right_sums(scenario, coverage).map_err(|text| Difference { list: index, call: None, text })?;
        match self.walk_difference(scenario, list, accepted, stop) {
            Some(text) => Err(Difference { list: index, call: None, text: format!("by single clocks alone: {text}") }),
            None => Ok(stop),
        }
    }

    /// The page list whole, also what is behind the entries that a call was lent; and the total of those.
    fn sums_difference(&self, lent: Option<usize>) -> Option<String> {
        let total = |length: usize| check_total(&self.sums.library[..length]).err();
        list_difference("sums", &self.sums.library, &self.sums.model).or_else(|| lent.and_then(total))
    }

    /// Where all sums are right, their total in any order of pages is the straight sum of all bytes.
    fn check_right_sums(&self, scenario: &Scenario, coverage: &mut Coverage) -> Result<(), String> {
        if scenario.page_list.is_some() {
            let random = &Random::new(u64::from(self.world.state.clock), u64::from(self.world.state.pc));
            let right = check_straight_sum(random, &self.sums.library[..PAGES], &self.library.memory)?;
            coverage.total(right);
        }
        Ok(())
    }

    /// The model's side of a call. Damage that the model's state cannot have makes the state not well-formed.
    fn model_call(
        &mut self,
        scenario: &Scenario,
        list: &List,
        call: Call,
        lent: Option<usize>,
        coverage: &mut Coverage,
    ) -> Outcome {
        if scenario.byte_damage.is_some() {
            let by_length = refusal_by_length(scenario.memory.len(), lent.unwrap_or(PAGES));
            let number = if by_length != 0 { by_length } else { 2 };
            return Outcome { number, leaps: 0, inputs_read: 0, records_written: 0 };
        }
        coverage.begin_call();
        let observe = |before: &State, after: &State, report: &ClockReport| coverage.clock(before, after, report);
        let n = u64::from(call.clocks());
        match lent {
            Some(length) => {
                run_with_sums_observed(&mut self.world, &mut self.sums.model[..length], n, list.halt, observe)
            }
            None => run_observed(&mut self.world, n, list.halt, observe),
        }
    }

    fn call_difference(&self, scenario: &Scenario, result: &CallResult, outcome: &Outcome) -> Option<String> {
        let number = u8::from(result.number);
        if number != outcome.number {
            return Some(format!("number: library {number}, model {}", outcome.number));
        }
        if u64::from(result.leaps) != outcome.leaps {
            return Some(format!("leaps: library {}, model {}", result.leaps, outcome.leaps));
        }
        if result.read != outcome.inputs_read {
            return Some(format!("inputs read: library {}, model {}", result.read, outcome.inputs_read));
        }
        if result.written != outcome.records_written {
            return Some(format!("records written: library {}, model {}", result.written, outcome.records_written));
        }
        let expected = library_state_of(scenario, &self.world);
        first_difference(&result.state, &expected).or_else(|| self.lent_difference(&self.library))
    }

    /// Memory and output lists, whole.
    fn lent_difference(&self, library: &Chip) -> Option<String> {
        list_difference("memory", &library.memory, &self.world.memory)
            .or_else(|| list_difference("output clocks", library.output_clocks(), &self.world.output_clocks))
            .or_else(|| list_difference("output words", library.output_words(), &self.world.output_words))
    }

    /// As many single clocks as the accepted calls of a list asked for, from a copy of its start. In a scenario with a
    /// page list all of them are lent 256 sums, and the changes add up.
    fn walk_difference(&mut self, scenario: &Scenario, list: &List, accepted: u64, stop: u8) -> Option<String> {
        start(&mut self.walk, scenario, list, &self.lent);
        copy(&mut self.sums.walk, &self.sums.lent);
        let mut number = 0;
        for _ in 0..accepted {
            let sums = scenario.page_list.as_ref().map(|_| &mut self.sums.walk[..PAGES]);
            let result = make(&mut self.walk, Call::Step, sums);
            number = u8::from(result.number);
            if result.leaps != u32::from(number == 0 || number == 12) {
                return Some(format!("a single clock of number {number} with {} leaps", result.leaps));
            }
            if number != 0 {
                break;
            }
        }
        if number != stop {
            return Some(format!("number: library {number}, model {stop}"));
        }
        if (self.walk.read(), self.walk.written()) != (self.world.read, self.world.written) {
            return Some(format!(
                "inputs read and records written: library {} and {}, model {} and {}",
                self.walk.read(),
                self.walk.written(),
                self.world.read,
                self.world.written
            ));
        }
        let expected = library_state_of(scenario, &self.world);
        first_difference(&self.walk.state, &expected)
            .or_else(|| self.lent_difference(&self.walk))
            .or_else(|| self.walk_sums_difference(scenario))
    }

    fn walk_sums_difference(&mut self, scenario: &Scenario) -> Option<String> {
        scenario.page_list.as_ref()?;
        let (before, after) = (page_sums(&self.lent.memory), page_sums(&self.world.memory));
        change(&mut self.sums.lent[..PAGES], &before, &after);
        list_difference("sums", &self.sums.walk, &self.sums.lent)
    }
}

pub fn list_difference<T: Copy + PartialEq + std::fmt::UpperHex>(
    name: &str,
    library: &[T],
    model: &[T],
) -> Option<String> {
    if library == model {
        return None;
    }
    if library.len() != model.len() {
        return Some(format!("{name}: library {} entries, model {}", library.len(), model.len()));
    }
    let at = (0..library.len()).find(|&i| library[i] != model[i])?;
    Some(format!("{name} at {at:X}h: library {:X}h, model {:X}h", library[at], model[at]))
}
