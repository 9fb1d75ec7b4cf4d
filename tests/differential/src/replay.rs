//! One scenario in detail: what it is, what each side says after each call, and the first clock on which the two
//! differ.

use crate::compare::{is_stop, lent_first, lent_next, list_difference, Difference, Sides};
use crate::coverage::Coverage;
use crate::scenario::{List, Maker, Scenario};
use differential::convert::{first_difference, library_state};
use plain_clock::sums::{right, run_with_sums, run_with_sums_observed, PAGES};
use plain_clock::{run, World};

pub fn print_scenario(scenario: &Scenario) {
    println!("theme {:?}", scenario.theme);
    println!("start {:X?}", scenario.state);
    if let Some(found) = scenario.byte_damage {
        println!("damage {} by the byte {:X}h", found.damage, found.byte);
    }
    println!("memory of {} bytes", scenario.memory.len());
    print_bytes(scenario, "code at PC", usize::from(scenario.state.pc), 48);
    print_bytes(scenario, "page zero", 0x40, 0xC0);
    print_bytes(scenario, "vectors", 0xFFFA, 6);
    for vector in [0xFFFA, 0xFFFC, 0xFFFE] {
        if let Some(&[low, high]) = scenario.memory.get(vector..vector + 2) {
            let target = u16::from_le_bytes([low, high]);
            print_bytes(scenario, "code at a vector", usize::from(target), 48);
        }
    }
    let inputs = scenario.input_clocks.iter().zip(&scenario.input_codes);
    let inputs: Vec<String> = inputs.map(|(clock, code)| format!("{clock}:{code:02X}h")).collect();
    let (clocks, codes) = (scenario.input_clocks.len(), scenario.input_codes.len());
    println!("inputs, {clocks} clocks and {codes} codes: {}", inputs.join(" "));
    println!("free entries: {} clocks, {} words", scenario.output_clocks.len(), scenario.output_words.len());
    for (index, list) in scenario.lists.iter().enumerate() {
        println!("{list:X?}");
        if scenario.page_list.is_some() {
            let lent: Vec<_> = (0..list.calls.len()).map(|call| scenario.sums_lent(index, call)).collect();
            println!("    sums lent {lent:?}");
        }
    }
    if let Some(page_list) = &scenario.page_list {
        let sums = &page_list.entries[..PAGES];
        println!("sums{}: {sums:X?}", if right(sums, &scenario.memory) { ", right" } else { "" });
    }
}

fn print_bytes(scenario: &Scenario, name: &str, from: usize, number: usize) {
    let memory = &scenario.memory;
    let end = (from + number).min(memory.len());
    if from < end {
        let bytes: Vec<String> = memory[from..end].iter().map(|byte| format!("{byte:02X}")).collect();
        println!("{name}, {from:04X}h: {}", bytes.join(" "));
    }
}

/// Does one scenario again in detail. Gives whether the sides agree.
pub fn replay(seed: u64, index: u64) -> bool {
    let mut scenario = Scenario::empty();
    Maker::new(seed).make(index, &mut scenario);
    print_scenario(&scenario);
    let outcome = Sides::new().check(&scenario, &mut Coverage::new());
    print_calls(&scenario);
    let Err(difference) = outcome else {
        println!("no difference");
        return true;
    };
    print_difference(&difference);
    if scenario.byte_damage.is_none() {
        print_first_clock(&scenario);
    }
    false
}

pub fn print_difference(difference: &Difference) {
    let list = difference.list;
    match difference.call {
        Some(call) => println!("list {list}, call {call} differs: {}", difference.text),
        None => println!("list {list}, the single clocks differ: {}", difference.text),
    }
}

fn world_of(scenario: &Scenario) -> World {
    let mut world = World {
        state: scenario.state.clone(),
        memory: Vec::new(),
        input_clocks: Vec::new(),
        input_codes: Vec::new(),
        read: 0,
        output_clocks: Vec::new(),
        output_words: Vec::new(),
        written: 0,
        stop: 0,
    };
    lent_first(scenario, &mut world);
    world
}

/// What the model says of each call.
fn print_calls(scenario: &Scenario) {
    if scenario.byte_damage.is_some() {
        return;
    }
    let mut world = world_of(scenario);
    let mut sums = scenario.page_list.as_ref().map_or(Vec::new(), |page_list| page_list.entries.clone());
    for (index, list) in scenario.lists.iter().enumerate() {
        if index > 0 && world.stop == 0 {
            break;
        } else if index > 0 {
            lent_next(list, &mut world);
        }
        print_list(scenario, index, &mut world, &mut sums);
    }
}

fn print_list(scenario: &Scenario, index: usize, world: &mut World, sums: &mut [u16]) {
    let list = &scenario.lists[index];
    for (place, call) in list.calls.iter().enumerate() {
        let (n, lent) = (u64::from(call.clocks()), scenario.sums_lent(index, place));
        let outcome = match lent {
            Some(length) => run_with_sums(world, &mut sums[..length], n, list.halt),
            None => run(world, n, list.halt),
        };
        println!("{call:?}: {outcome:?}");
        println!("    {:X?}", world.state);
        if is_stop(outcome.number) {
            break;
        }
    }
    for record in 0..world.written {
        println!("record {} {:08X}", world.output_clocks[record], world.output_words[record]);
    }
}

/// Walks both sides by single clocks and shows the first clock after which they differ.
fn print_first_clock(scenario: &Scenario) {
    let mut world = world_of(scenario);
    for (index, list) in scenario.lists.iter().enumerate() {
        if index > 0 && world.stop == 0 {
            break;
        } else if index > 0 {
            lent_next(list, &mut world);
        }
        if differs_in_list(list, &mut world) {
            return;
        }
    }
    println!("by single clocks the sides agree: the difference is of the run, of a refusal or of a count");
}

/// Walks one list, and prints the first clock that differs.
fn differs_in_list(list: &List, world: &mut World) -> bool {
    let clocks: u64 = list.calls.iter().map(|call| u64::from(call.clocks())).sum();
    for _ in 0..clocks {
        let before = world.clone();
        let mut memory = before.memory.clone();
        let (mut output_clocks, mut output_words) = (before.output_clocks.clone(), before.output_words.clone());
        let (mut library_sums, mut model_sums) = ([0; PAGES], [0; PAGES]);
        let result = r6501q::step_with_sums(
            library_state(&before.state),
            &mut memory,
            &mut library_sums,
            &before.input_clocks[before.read..],
            &before.input_codes[before.read..],
            &mut output_clocks[before.written..],
            &mut output_words[before.written..],
            list.halt,
        );
        let mut report = None;
        let outcome = run_with_sums_observed(world, &mut model_sums, 1, list.halt, |_, _, met| report = Some(*met));
        let number = u8::from(result.number);
        let different = first_difference(&result.state, &library_state(&world.state))
            .or_else(|| list_difference("memory", &memory, &world.memory))
            .or_else(|| list_difference("output clocks", &output_clocks, &world.output_clocks))
            .or_else(|| list_difference("output words", &output_words, &world.output_words))
            .or_else(|| list_difference("changes of sums", &library_sums, &model_sums))
            .or_else(|| {
                (number != outcome.number).then(|| format!("number: library {number}, model {}", outcome.number))
            });
        if let Some(text) = different {
            println!("the clock after {} differs: {text}", before.state.clock);
            println!("before  {:X?}", library_state(&before.state));
            println!("library {:X?}", result.state);
            println!("model   {:X?}", library_state(&world.state));
            println!("model's clock {report:X?}");
            return true;
        }
        if outcome.number != 0 {
            break;
        }
    }
    false
}
