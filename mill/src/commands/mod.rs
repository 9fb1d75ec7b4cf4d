//! The commands, each with what it takes, how it is used, and what it does.
mod compare;
mod latch;
mod path;
mod plot;
pub mod run;
mod tape;
mod vcd;

use crate::failure::{Failure, Verdict};
use crate::files::note;
use crate::folder::Folder;
use crate::steps::{direction, edge, Axis, DIRECTION, STEP};
use crate::units::Time;
use clap::{Args, Parser, Subcommand};
use r6501q::{Level, Pin};

/// What every help ends with.
const CODES: &str = "Exit codes: 0 done or alike, 1 differs or no latch fits, 2 usage, 3 file, 4 tape refused, \
                     5 input list refused, 6 undefined opcode, 7 line and receiver do not fit (--strict), \
                     130 interrupted.";

/// From a mill's firmware and path to steps, wave forms and pictures.
#[derive(Parser)]
#[command(name = "mill", version, after_help = CODES)]
pub struct Mill {
    #[command(subcommand)]
    pub command: Command,
}

/// A command.
#[derive(Subcommand)]
pub enum Command {
    Tape(tape::Arguments),
    Run(Box<run::Arguments>),
    Path(path::Arguments),
    Vcd(vcd::Arguments),
    Plot(plot::Arguments),
    Compare(compare::Arguments),
    Latch(latch::Arguments),
}

impl Command {
    /// Does it.
    pub fn act(&self) -> Result<Verdict, Failure> {
        match self {
            Command::Tape(arguments) => tape::act(arguments),
            Command::Run(arguments) => run::act(arguments),
            Command::Path(arguments) => path::act(arguments),
            Command::Vcd(arguments) => vcd::act(arguments),
            Command::Plot(arguments) => plot::act(arguments),
            Command::Compare(arguments) => compare::act(arguments),
            Command::Latch(arguments) => latch::act(arguments),
        }
    }
}

/// The pins that mean a step and its direction.
#[derive(Args)]
#[group(skip)]
struct AxisArguments {
    /// Which edge of which pin is a step
    #[arg(long, value_name = "PIN:rise|fall", default_value = STEP, value_parser = edge)]
    step: (Pin, Level),
    /// Which pin gives the direction, and its level for up
    #[arg(long, value_name = "PIN[:high|low]", default_value = DIRECTION, value_parser = direction)]
    direction: (Pin, Level),
}

impl AxisArguments {
    fn axis(&self) -> Result<Axis, Failure> {
        Axis::of(self.step, self.direction).map_err(Failure::Usage)
    }
}

/// An option's time in clocks.
pub fn clocks(name: &str, time: Option<Time>, rate: u32) -> Result<Option<u64>, Failure> {
    let clocks = time.map(|time| time.clocks(rate)).transpose();
    clocks.map_err(|words| Failure::Usage(format!("{name}: {words}")))
}

/// Opens a run's folder; that the run was cut short, or ended by an undefined opcode, is said on standard error.
fn opened(name: &str) -> Result<Folder, Failure> {
    let folder = Folder::open(name)?;
    if let Some(words) = folder.unfinished() {
        note(&format!("mill: {name}: {words}"));
    }
    Ok(folder)
}

#[cfg(test)]
mod tests {
    use super::*;
    use clap::CommandFactory;

    #[test]
    fn the_commands_are_well_formed() {
        Mill::command().debug_assert();
    }

    #[test]
    fn options_and_others_may_stand_in_any_order() {
        let parsed = |line: &str| match Mill::try_parse_from(line.split_whitespace()).map(|mill| mill.command) {
            Ok(Command::Tape(arguments)) => Some(arguments),
            _ => None,
        };
        let expected = parsed("mill tape a b -o c --skip-zeros");
        assert!(expected.is_some());
        for line in ["mill tape -o=c a --skip-zeros b", "mill tape --skip-zeros -o c -- a b"] {
            assert_eq!(parsed(line), expected, "{line}");
        }
        assert_eq!(parsed("mill tape -o c -o d a"), None);
        assert_eq!(parsed("mill tape a --skip-zeros=1"), None);
        assert_eq!(parsed("mill tape"), None);
    }
}
