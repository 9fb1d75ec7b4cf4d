//! Scenario files: a tape, inputs, a number of clocks and of free records, one scenario after another. Each starts from
//! fresh; its inputs make RES high.

use crate::clock::World;
use crate::run::{run, MEMORY_LENGTH};
use crate::state::fresh;
use crate::tape::load_tape;
use std::fmt::Write;

/// One scenario, ready to run.
pub struct Scenario {
    pub world: World,
    /// Single clocks to do.
    pub clocks: u32,
    /// 0, or the number with which the tape was refused.
    pub tape_number: u8,
}

/// Reads all scenarios of a file.
pub fn read_file(text: &[u8]) -> Vec<Scenario> {
    let mut scenarios = Vec::new();
    let mut position = 0;
    while text[position..].contains(&b';') {
        let (scenario, length) = read_scenario(&text[position..]);
        scenarios.push(scenario);
        position += length;
    }
    scenarios
}

/// Performs all scenarios of a file and gives the printed text.
pub fn perform_file(text: &[u8]) -> String {
    let mut printed = String::new();
    for mut scenario in read_file(text) {
        let (done, number) = single_clocks(&mut scenario, |_| {});
        print_outcome(&scenario.world, done, number, &mut printed);
    }
    printed
}

/// Reads the first scenario of `text` and gives the number of characters it takes.
fn read_scenario(text: &[u8]) -> (Scenario, usize) {
    let mut memory = vec![0; MEMORY_LENGTH];
    let (tape_number, place) = load_tape(text, &mut memory);
    let mut world = World {
        state: fresh(),
        memory,
        input_clocks: Vec::new(),
        input_codes: Vec::new(),
        read: 0,
        output_clocks: Vec::new(),
        output_words: Vec::new(),
        written: 0,
        stop: 0,
    };
    let (clocks, records, end) = read_settings(text, place, &mut world);
    world.output_clocks = vec![0; records];
    world.output_words = vec![0; records];
    (Scenario { world, clocks, tape_number }, end)
}

/// Reads the `+` entries and the `=` line; gives clocks, free records and the position behind that line's digits.
fn read_settings(text: &[u8], from: usize, world: &mut World) -> (u32, usize, usize) {
    let mut position = from;
    while position < text.len() {
        match text[position] {
            b'+' => {
                world.input_clocks.push(hex(text, position + 1, 8));
                world.input_codes.push(hex(text, position + 10, 2) as u8);
                position += 12;
            }
            b'=' => return (hex(text, position + 1, 4), hex(text, position + 6, 2) as usize, position + 8),
            _ => position += 1,
        }
    }
    (0, 0, position)
}

fn hex(text: &[u8], from: usize, digits: usize) -> u32 {
    let part = std::str::from_utf8(&text[from..from + digits]).expect("hex digits");
    u32::from_str_radix(part, 16).expect("hex digits")
}

/// Calls with n = 1; after a stop or refusal no further call. Gives the clocks done and the number that ended them.
/// `observe` sees the world after each done clock. A refused tape does no clock.
pub fn single_clocks(scenario: &mut Scenario, mut observe: impl FnMut(&World)) -> (u32, u8) {
    if scenario.tape_number != 0 {
        return (0, scenario.tape_number);
    }
    for done in 0..scenario.clocks {
        let outcome = run(&mut scenario.world, 1, None);
        if outcome.number != 0 {
            return (done, outcome.number);
        }
        observe(&scenario.world);
    }
    (scenario.clocks, 0)
}

/// A line `clock WORD` for each record, then `end K S`.
pub fn print_outcome(world: &World, done: u32, number: u8, printed: &mut String) {
    for record in 0..world.written {
        let (clock, word) = (world.output_clocks[record], world.output_words[record]);
        writeln!(printed, "{clock} {word:08X}").expect("text");
    }
    writeln!(printed, "end {done} {number}").expect("text");
}
