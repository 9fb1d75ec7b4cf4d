// Firmware by `run`, by `step` and on the plain-clock model, piece by piece by turns. State, memory and records must be
// the same after each piece.

use std::path::Path;
use std::time::Duration;

use differential::firmware::{Firmware, ALL};

use crate::processor_time::Least;
use crate::table::{count, speed, Table};
use crate::timed::{chip, model, run, same, same_as_model, steps, walk};
use crate::PIECE;

// The least times of one firmware, and what a turn comes to.
struct Times {
    run: Least,
    step: Least,
    model: Least,
    leaps: u64,
    records: u64,
}

pub fn print(made: &Path, pieces: u32, turns: u32) -> Result<(), String> {
    let clocks = PIECE * pieces;
    println!(
        "Firmware: {} clocks each, in pieces of {}; least of {turns} turns. Clocks per second.\n",
        count(u64::from(clocks)),
        count(u64::from(PIECE))
    );
    let mut table = Table::new(&["firmware", "leaps", "records", "`run`", "`step`", "model", "`run` to model"]);
    for firmware in &ALL {
        let times = times(firmware, made, pieces, turns).map_err(|e| format!("{}: {e}", firmware.name))?;
        let speed = |least: Least| speed(f64::from(clocks), least.seconds());
        table.row(&[
            firmware.name.to_string(),
            count(times.leaps),
            count(times.records),
            speed(times.run),
            speed(times.step),
            speed(times.model),
            format!("{:.2}", times.model.seconds() / times.run.seconds()),
        ]);
    }
    table.print();
    Ok(())
}

fn times(firmware: &Firmware, made: &Path, pieces: u32, turns: u32) -> Result<Times, String> {
    let mut times = Times { run: Least::new(), step: Least::new(), model: Least::new(), leaps: 0, records: 0 };
    for _ in 0..turns {
        turn(&mut times, firmware, made, pieces)?;
    }
    Ok(times)
}

// The firmware once by each way, from fresh.
fn turn(times: &mut Times, firmware: &Firmware, made: &Path, pieces: u32) -> Result<(), String> {
    let (memory, inputs) = (firmware.memory(made)?, firmware.inputs(PIECE * pieces));
    let (mut by_run, mut by_step) = (chip(memory.clone(), &inputs), chip(memory.clone(), &inputs));
    let mut world = model(memory, &inputs);
    let mut spent = [Duration::ZERO; 3];
    let mut records = 0;
    for _ in 0..pieces {
        spent[0] += run(&mut by_run, PIECE)?;
        spent[1] += steps(&mut by_step, PIECE)?;
        spent[2] += walk(&mut world, PIECE)?;
        same(&by_run, &by_step).map_err(|e| format!("`run` and `step`: {e}"))?;
        same_as_model(&by_run, &world).map_err(|e| format!("`run` and the model: {e}"))?;
        records += by_run.take_records().len() as u64;
        by_step.take_records();
        world.written = 0;
    }
    times.run.take(spent[0]);
    times.step.take(spent[1]);
    times.model.take(spent[2]);
    (times.leaps, times.records) = (by_run.leaps(), records);
    Ok(())
}
