//! `mill compare`: two runs, step by step.
use super::{opened, AxisArguments, CODES};
use crate::compare::{compared, Comparison};
use crate::failure::{Failure, Verdict};
use crate::files::print;
use crate::folder::Folder;
use crate::steps::{Axis, Step};
use crate::units::{grouped, seconds};
use clap::Parser;

/// Compares the steps of two runs; exit code 1 where they differ.
#[derive(Parser)]
#[command(after_help = format!("{SAID}\n\n{CODES}"))]
#[group(skip)]
pub struct Arguments {
    /// The folder of the first run
    #[arg(value_name = "DIR")]
    first: String,
    /// The folder of the second run
    #[arg(value_name = "DIR")]
    second: String,
    /// Clocks that two steps may be apart
    #[arg(long, value_name = "N", default_value_t = 0)]
    clocks: u64,
    #[command(flatten)]
    axis: AxisArguments,
}

const SAID: &str = "It says the first step that differs, steps too many or missing, and the worst deviation in time \
                    and place.";

pub fn act(arguments: &Arguments) -> Result<Verdict, Failure> {
    let axis = arguments.axis.axis()?;
    let first = Side::read(&arguments.first, axis)?;
    let second = Side::read(&arguments.second, axis)?;
    if first.folder.rate != second.folder.rate {
        let rates = [&first, &second].map(|side| grouped(side.folder.rate));
        let words = "runs are compared at one clock rate alone";
        return Err(Failure::Usage(format!("the runs have {} and {} clocks a second: {words}", rates[0], rates[1])));
    }
    let comparison = compared(&first.steps, &second.steps, arguments.clocks);
    print(&report(&first, &second, &comparison))?;
    Ok(if comparison.first.is_none() { Verdict::Done } else { Verdict::Differs })
}

struct Side {
    folder: Folder,
    steps: Vec<Step>,
}

impl Side {
    fn read(name: &str, axis: Axis) -> Result<Side, Failure> {
        let folder = opened(name)?;
        let steps = axis.steps(folder.records()?).collect::<Result<_, _>>()?;
        Ok(Side { folder, steps })
    }

    fn line(&self) -> String {
        let end = self.steps.last().map_or(0, |step| step.position);
        format!("{}: {}, end position {end}\n", self.folder.name(), counted(self.steps.len() as u64))
    }

    /// Clock and time.
    fn at(&self, clock: u64) -> String {
        format!("clock {} ({} s)", grouped(clock), seconds(clock, self.folder.rate))
    }

    /// A step of this side in words.
    fn step(&self, index: usize) -> String {
        match self.steps.get(index) {
            Some(step) => format!("{} to position {} on {}", self.folder.name(), step.position, self.at(step.clock)),
            None => format!("{} has no such step", self.folder.name()),
        }
    }
}

/// So many steps.
fn counted(steps: u64) -> String {
    format!("{} step{}", grouped(steps), if steps == 1 { "" } else { "s" })
}

fn report(first: &Side, second: &Side, comparison: &Comparison) -> String {
    let mut text = first.line() + &second.line();
    match comparison.first {
        None => text += "alike\n",
        Some(index) => {
            let number = grouped(index as u64 + 1);
            text +=
                &format!("step {number} is the first that differs: {}; {}\n", first.step(index), second.step(index));
        }
    }
    let counts = (first.steps.len() as u64, second.steps.len() as u64);
    if counts.0 != counts.1 {
        let what = if counts.1 > counts.0 { "too many" } else { "missing" };
        text += &format!("{}: {} {what}\n", second.folder.name(), counted(counts.0.abs_diff(counts.1)));
    }
    if let Some((clocks, index)) = comparison.worst_clocks {
        text += &format!("worst in time: {} clocks, step {}\n", grouped(clocks), grouped(index as u64 + 1));
    }
    if let Some((steps, clock)) = comparison.worst_place {
        text += &format!("worst in place: {} apart, first on {}\n", counted(steps), first.at(clock));
    }
    text
}

#[cfg(test)]
mod tests {
    use super::*;

    fn side(name: &str, steps: &[(u64, i64)]) -> Side {
        let steps = steps.iter().map(|(clock, position)| Step { clock: *clock, position: *position }).collect();
        Side { folder: Folder::named(name, 1_000_000), steps }
    }

    #[test]
    fn a_report_has_the_first_step_that_differs_and_the_worst() {
        let (first, second) = (side("a", &[(10, 1), (2_000, 2)]), side("b", &[(10, 1), (1_990, 2), (3_000, 3)]));
        let text = report(&first, &second, &compared(&first.steps, &second.steps, 0));
        let lines: Vec<&str> = text.lines().collect();
        assert_eq!(lines[..2], ["a: 2 steps, end position 2", "b: 3 steps, end position 3"]);
        let differs = "step 2 is the first that differs: a to position 2 on clock 2,000 (0.002000 s); \
                       b to position 2 on clock 1,990 (0.001990 s)";
        assert_eq!(lines[2], differs);
        assert_eq!(lines[3..5], ["b: 1 step too many", "worst in time: 10 clocks, step 2"]);
        assert_eq!(lines[5..], ["worst in place: 1 step apart, first on clock 1,990 (0.001990 s)"]);
        let alike = report(&first, &first, &compared(&first.steps, &first.steps, 0));
        assert_eq!(alike.lines().last(), Some("alike"));
    }
}
