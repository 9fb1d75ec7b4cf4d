//! `mill path`: a run's steps as a table of clock, seconds and position.
use super::{opened, AxisArguments, CODES};
use crate::failure::{Failure, Verdict};
use crate::files::output;
use crate::units::seconds;
use clap::Parser;

/// The steps of a run as CSV: clock, seconds, position.
#[derive(Parser)]
#[command(after_help = CODES)]
#[group(skip)]
pub struct Arguments {
    /// The folder of a run
    #[arg(value_name = "DIR")]
    folder: String,
    #[command(flatten)]
    axis: AxisArguments,
    /// The file to write [default: standard output]
    #[arg(short, value_name = "FILE")]
    output: Option<String>,
}

pub fn act(arguments: &Arguments) -> Result<Verdict, Failure> {
    let axis = arguments.axis.axis()?;
    let folder = opened(&arguments.folder)?;
    output(arguments.output.as_deref(), |out| {
        let mut table = csv::Writer::from_writer(out);
        table.write_record(["clock", "seconds", "position"])?;
        for step in axis.steps(folder.records()?) {
            let step = step?;
            let (clock, seconds) = (step.clock.to_string(), seconds(step.clock, folder.rate));
            table.write_record([clock, seconds, step.position.to_string()])?;
        }
        Ok(table.flush()?)
    })?;
    Ok(Verdict::Done)
}
