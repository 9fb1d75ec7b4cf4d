// Clocks on a chip and on the plain-clock model, timed, and whether they have come to the same.

use std::time::Duration;

use differential::convert::{first_difference, library_state};
use differential::firmware::Inputs;
use plain_clock::cpu::Start;
use plain_clock::World;
use r6501q::{Chip, Number, State};

use crate::processor_time;

// Free records: more than a piece writes.
const SPACE: usize = 262_144;

// A fresh chip, released.
pub fn chip(memory: Vec<u8>, inputs: &Inputs) -> Chip {
    let mut chip = Chip::with(State::fresh(), memory);
    chip.set_inputs(&inputs.0, &inputs.1);
    chip.release();
    chip.set_space(&[0; SPACE], &[0; SPACE]);
    chip
}

// A fresh model, released.
pub fn model(memory: Vec<u8>, inputs: &Inputs) -> World {
    let mut world = World {
        state: plain_clock::fresh(),
        memory,
        input_clocks: inputs.0.clone(),
        input_codes: inputs.1.clone(),
        read: 0,
        output_clocks: vec![0; SPACE],
        output_words: vec![0; SPACE],
        written: 0,
        stop: 0,
    };
    world.release();
    world
}

fn done(number: Result<(), Number>) -> Result<(), String> {
    number.map_err(|number| number.to_string())
}

// So many clocks by one run.
pub fn run(chip: &mut Chip, clocks: u32) -> Result<Duration, String> {
    let (number, time) = processor_time::of(|| chip.run(clocks));
    done(number)?;
    Ok(time)
}

// So many clocks in calls of a few each.
pub fn calls(chip: &mut Chip, clocks: u32, each: u32) -> Result<(), String> {
    (0..clocks / each).try_for_each(|_| run(chip, each).map(|_| ()))
}

// So many clocks by single clocks.
pub fn steps(chip: &mut Chip, clocks: u32) -> Result<Duration, String> {
    let (number, time) = processor_time::of(|| (0..clocks).try_for_each(|_| chip.step()));
    done(number)?;
    Ok(time)
}

// So many clocks of the model. It checks the inputs that are left and walks each clock.
pub fn walk(world: &mut World, clocks: u32) -> Result<Duration, String> {
    let (outcome, time) = processor_time::of(|| plain_clock::run(world, u64::from(clocks), None));
    match outcome.number {
        0 => Ok(time),
        number => Err(format!("the model ends with {number}")),
    }
}

// The instructions that the model starts in so many clocks.
pub fn instructions(world: &mut World, clocks: u32) -> Result<u64, String> {
    let mut started = 0;
    let outcome = plain_clock::run_observed(world, u64::from(clocks), None, |_, _, report| {
        started += u64::from(report.start == Some(Start::Instruction));
    });
    match outcome.number {
        0 => Ok(started),
        number => Err(format!("the model ends with {number}")),
    }
}

// The same state, memory and records not taken yet, or what differs.
pub fn same(one: &Chip, other: &Chip) -> Result<(), String> {
    if let Some(field) = first_difference(&one.state, &other.state) {
        return Err(field);
    }
    same_memory(&one.memory, &other.memory)?;
    if !one.records().eq(other.records()) {
        return Err("the records differ".to_string());
    }
    Ok(())
}

// The same of a chip and the model.
pub fn same_as_model(chip: &Chip, world: &World) -> Result<(), String> {
    if let Some(field) = first_difference(&chip.state, &library_state(&world.state)) {
        return Err(field);
    }
    same_memory(&chip.memory, &world.memory)?;
    let records = world.output_clocks.iter().zip(&world.output_words).take(world.written);
    if !chip.records().map(|record| (record.clock, record.word)).eq(records.map(|(c, w)| (*c, *w))) {
        return Err("the records differ".to_string());
    }
    Ok(())
}

pub fn same_memory(one: &[u8], other: &[u8]) -> Result<(), String> {
    match one.iter().zip(other).position(|(a, b)| a != b) {
        None => Ok(()),
        Some(at) => Err(format!("{at:04X}h holds {:02X}h and {:02X}h", one[at], other[at])),
    }
}
