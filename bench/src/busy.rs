// The busy program on the chip and its peers, from reset to exit: by `run` in pieces, by `step`, on VICE's core in its
// two loops, by turns piece by piece, and on sim65. At the end of each piece all must be the same.

use std::path::Path;
use std::time::Duration;

use differential::firmware::Inputs;
use programs::chip::{by_runs, RESET_CLOCKS};
use programs::executable::Executable;

use crate::processor_time::Least;
use crate::sim65::Sim65;
use crate::table::{count, speed, Table};
use crate::timed::{chip, run, same, steps};
use crate::vice::Vice;
use crate::PIECE;

// More clocks than the program takes.
const LIMIT: u32 = 1_000_000_000;

// The jump to the exit, which sim65 does not count.
const JUMP: u32 = 3;

// As it is linked for the chip.
pub fn program(made: &Path) -> Result<Executable, String> {
    let file = std::fs::read(made.join("chip/busy")).map_err(|e| e.to_string())?;
    Executable::parse(&file)
}

pub struct Busy {
    program: Executable,
    // From reset to exit.
    clocks: u32,
    whole: Sim65,
    // The program with a single round: its time and its cycles are taken off, and the start of a process with them.
    one_round: Sim65,
}

impl Busy {
    // The program from the folder of what is linked. Chip and sim65 must come to the same.
    pub fn new(made: &Path) -> Result<Busy, String> {
        let program = program(made)?;
        let on_chip = by_runs(&program, "busy", PIECE, LIMIT)?;
        let folder = made.join("sim65");
        let whole = Sim65::new(&folder, "busy", LIMIT)?;
        let counted = RESET_CLOCKS + whole.cycles + JUMP;
        if (on_chip.code, on_chip.state.clock) != (whole.code, counted) {
            return Err(format!(
                "it exits with {} after {} clocks, on sim65 with {} after {counted}",
                on_chip.code, on_chip.state.clock, whole.code
            ));
        }
        Ok(Busy { program, clocks: on_chip.state.clock, whole, one_round: Sim65::new(&folder, "one_round", LIMIT)? })
    }

    pub fn memory(&self) -> Vec<u8> {
        self.program.memory()
    }

    pub fn print(&self, turns: u32) -> Result<(), String> {
        let (mut run, mut step) = (Least::new(), Least::new());
        let (mut plain, mut machine) = (Least::new(), Least::new());
        let (mut whole, mut one_round) = (Least::new(), Least::new());
        let mut leaps = 0;
        for _ in 0..turns {
            let turn = self.turn()?;
            run.take(turn.run);
            step.take(turn.step);
            plain.take(turn.plain);
            machine.take(turn.machine);
            leaps = turn.leaps;
            whole.take(self.whole.run()?);
            one_round.take(self.one_round.run()?);
        }
        let clocks = f64::from(self.clocks);
        let instructions = clocks - f64::from(RESET_CLOCKS);
        let cycles = f64::from(self.whole.cycles - self.one_round.cycles);
        let ways = [
            ("`run`", clocks, run.seconds()),
            ("`step`", clocks, step.seconds()),
            ("VICE's core, plain memory", instructions, plain.seconds()),
            ("VICE's core, surroundings", instructions, machine.seconds()),
            ("sim65", cycles, whole.seconds() - one_round.seconds()),
        ];
        println!(
            "Busy program: {} clocks, {} leaps, in pieces of {}; least of {turns} turns.\n",
            count(u64::from(self.clocks)),
            count(leaps),
            count(u64::from(PIECE))
        );
        let mut table = Table::new(&["busy program", "clocks per second", "to `run`"]);
        for (name, clocks, seconds) in ways {
            let ratio = clocks / seconds / (ways[0].1 / ways[0].2);
            table.row(&[name.to_string(), speed(clocks, seconds), format!("{ratio:.2}")]);
        }
        table.print();
        Ok(())
    }

    // The program once by each way in this process.
    fn turn(&self) -> Result<Turn, String> {
        let none = Inputs::default();
        let (mut by_run, mut by_step) = (chip(self.memory(), &none), chip(self.memory(), &none));
        let mut plain = Vice::plain(self.program.start, self.memory());
        let mut machine = Vice::machine(self.program.start, self.memory());
        let mut turn = Turn::default();
        while by_run.state.clock < self.clocks {
            let piece = PIECE.min(self.clocks - by_run.state.clock);
            turn.run += run(&mut by_run, piece)?;
            turn.step += steps(&mut by_step, piece)?;
            turn.plain += plain.run_to(by_run.state.clock);
            turn.machine += machine.run_to(by_run.state.clock);
            same(&by_run, &by_step).map_err(|e| format!("`run` and `step`: {e}"))?;
            for vice in [&plain, &machine] {
                vice.same(&by_run.state, &by_run.memory).map_err(|e| format!("`run` and VICE: {e}"))?;
            }
        }
        turn.leaps = by_run.leaps();
        Ok(turn)
    }
}

#[derive(Default)]
struct Turn {
    run: Duration,
    step: Duration,
    plain: Duration,
    machine: Duration,
    leaps: u64,
}
