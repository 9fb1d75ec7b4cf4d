// How fast the chip is, by `run` and by `step`, beside VICE's core, sim65 and the plain-clock model, and how its cost
// grows with lists and lengths. Whatever is timed side by side must come to the same, or the program ends with 1.
//
// usage: bench FOLDER [--short], or for a profiler, nothing timed: bench FOLDER --only PROGRAM WAY [CLOCKS], where
// PROGRAM is `busy` or an image of bench/assemble, and WAY is run, step or model, or by_1, by_10 or by_100 for `run` in
// calls of so many clocks. With `count` for the way it prints the instructions that the model starts in those clocks.
mod beside_model;
mod busy;
mod calls;
mod inputs;
mod processor_time;
mod sim65;
mod start;
mod table;
mod timed;
mod vice;

use std::path::Path;
use std::process::ExitCode;

use busy::Busy;
use differential::firmware::{Firmware, Inputs};
use start::Start;

// The clocks of a piece.
pub const PIECE: u32 = 1_000_000;

// How much is measured.
struct Extent {
    turns: u32,
    // Of each firmware in a turn; the busy program has its own length.
    pieces: u32,
    // Of the tables of growth, whose runs are short.
    growth_turns: u32,
    input_lists: &'static [u32],
    longest_run: u32,
}

const WHOLE: Extent = Extent {
    turns: 7,
    pieces: 5,
    growth_turns: 15,
    input_lists: &[0, 1_000, 10_000, 100_000, 1_000_000],
    longest_run: 10_000_000,
};

const SHORT: Extent =
    Extent { turns: 2, pieces: 1, growth_turns: 3, input_lists: &[0, 1_000, 10_000, 100_000], longest_run: 1_000_000 };

fn main() -> ExitCode {
    let arguments: Vec<String> = std::env::args().skip(1).collect();
    let arguments: Vec<&str> = arguments.iter().map(String::as_str).collect();
    let result = match arguments[..] {
        [made] => measure(Path::new(made), &WHOLE),
        [made, "--short"] => measure(Path::new(made), &SHORT),
        [made, "--only", program, way, ref clocks @ ..] if WAYS.contains(&way) => match only_clocks(clocks) {
            Some(clocks) => only(Path::new(made), program, way, clocks),
            None => return usage(),
        },
        _ => return usage(),
    };
    match result {
        Ok(()) => ExitCode::SUCCESS,
        Err(difference) => {
            println!("{difference}");
            ExitCode::from(1)
        }
    }
}

fn usage() -> ExitCode {
    eprintln!("usage: bench FOLDER [--short | --only PROGRAM run|by_1|by_10|by_100|step|model|count [CLOCKS]]");
    ExitCode::from(2)
}

fn measure(made: &Path, extent: &Extent) -> Result<(), String> {
    let busy = Busy::new(made).map_err(|e| format!("busy program: {e}"))?;
    busy.print(extent.turns).map_err(|e| format!("busy program: {e}"))?;
    beside_model::print(made, extent.pieces, extent.turns)?;
    let start = Start::new(busy.memory())?;
    inputs::print(&start, extent.input_lists, extent.growth_turns).map_err(|e| format!("inputs: {e}"))?;
    calls::print(&start, extent.longest_run, extent.growth_turns).map_err(|e| format!("calls: {e}"))
}

// The clocks that a profiler sees, and the ways.
const ONLY_CLOCKS: u32 = 2 * PIECE;
const WAYS: [&str; 7] = ["run", "by_1", "by_10", "by_100", "step", "model", "count"];

// As many where none are given; not more than there are inputs for, which are the same for every number of clocks.
fn only_clocks(given: &[&str]) -> Option<u32> {
    match given {
        [] => Some(ONLY_CLOCKS),
        [clocks] => clocks.parse().ok().filter(|clocks| *clocks <= ONLY_CLOCKS),
        _ => None,
    }
}

// One program by one way.
fn only(made: &Path, program: &str, way: &str, clocks: u32) -> Result<(), String> {
    let (memory, inputs) = match (program, Firmware::find(program)) {
        ("busy", _) => (busy::program(made)?.memory(), Inputs::default()),
        (_, Some(firmware)) => (firmware.memory(made)?, firmware.inputs(ONLY_CLOCKS)),
        (_, None) => return Err(format!("{program} is no program of bench/run")),
    };
    match way {
        "run" => timed::run(&mut timed::chip(memory, &inputs), clocks).map(|_| ()),
        "by_1" => timed::calls(&mut timed::chip(memory, &inputs), clocks, 1),
        "by_10" => timed::calls(&mut timed::chip(memory, &inputs), clocks, 10),
        "by_100" => timed::calls(&mut timed::chip(memory, &inputs), clocks, 100),
        "step" => timed::steps(&mut timed::chip(memory, &inputs), clocks).map(|_| ()),
        "model" => timed::walk(&mut timed::model(memory, &inputs), clocks).map(|_| ()),
        _ => {
            println!("{}", timed::instructions(&mut timed::model(memory, &inputs), clocks)?);
            Ok(())
        }
    }
}
