//! Document 02, U8: a fresh chip that is released on its first clock does what one does that was never held, "but for
//! the one input more that is read". Both are the library's.

use crate::compare::list_difference;
use crate::scenario::{Maker, Scenario};
use differential::convert::{first_difference, library_state};
use plain_clock::state::ALL_PINS;
use plain_clock::State;
use r6501q::{CallResult, Chip};

/// The scenarios that start so; gives their number, or the text of a difference.
pub fn check_starts(seed: u64, scenarios: u64) -> Result<u64, String> {
    let mut maker = Maker::new(seed);
    let mut scenario = Scenario::empty();
    let mut runs = 0;
    for index in 0..scenarios {
        maker.make(index, &mut scenario);
        let (Some(release), None) = (scenario.release(), scenario.byte_damage) else { continue };
        if scenario.state != (State { clock: scenario.state.clock, ..plain_clock::fresh() }) {
            continue;
        }
        let compared = compare(&scenario, release).map_err(|text| format!("seed {seed}, index {index}: {text}"))?;
        runs += u64::from(compared);
    }
    Ok(runs)
}

/// One run of each from the scenario's start; gives whether it is one that is not refused.
fn compare(scenario: &Scenario, release: usize) -> Result<bool, String> {
    let (mut clocks, mut codes) = (scenario.input_clocks.clone(), scenario.input_codes.clone());
    let mut held = chip(scenario, &scenario.state, &clocks, &codes);
    clocks.remove(release);
    codes.remove(release);
    let mut unheld =
        chip(scenario, &State { external: ALL_PINS, last: ALL_PINS, ..scenario.state.clone() }, &clocks, &codes);
    let n = scenario.lists[0].calls.iter().map(|call| call.clocks()).max().unwrap_or(1).max(1);
    let (now, before) = (held.call_run(n), unheld.call_run(n));
    if (1..=5).contains(&u8::from(now.number)) {
        return Ok(false);
    }
    let expected = CallResult { read: before.read + 1, ..before };
    let different = first_difference(&now.state, &expected.state)
        .or_else(|| (now != expected).then(|| "number, leaps or counts".to_string()))
        .or_else(|| list_difference("memory", &held.memory, &unheld.memory))
        .or_else(|| list_difference("output clocks", held.output_clocks(), unheld.output_clocks()))
        .or_else(|| list_difference("output words", held.output_words(), unheld.output_words()));
    different.map_or(Ok(true), Err)
}

fn chip(scenario: &Scenario, state: &State, clocks: &[u32], codes: &[u8]) -> Chip {
    let mut chip = Chip::with(library_state(state), scenario.memory.clone());
    chip.halt = scenario.lists[0].halt;
    chip.set_inputs(clocks, codes);
    chip.set_space(&scenario.output_clocks, &scenario.output_words);
    chip
}
