//! `mill plot`: the positions of runs over time, as a picture.
use super::{clocks, opened, AxisArguments, CODES};
use crate::curve::{Curve, Window};
use crate::failure::{Failure, Verdict};
use crate::files::output;
use crate::folder::Folder;
use crate::picture::{columns, drawn};
use crate::units::{Time, TIMES};
use clap::{value_parser, Parser};

/// Position over time as SVG, several runs over each other.
#[derive(Parser)]
#[command(after_help = format!("{TIMES}\n\n{CODES}"))]
#[group(skip)]
pub struct Arguments {
    /// The folders of runs
    #[arg(value_name = "DIR", required = true)]
    folders: Vec<String>,
    #[command(flatten)]
    axis: AxisArguments,
    /// Where the time that is shown begins [default: the start]
    #[arg(long, value_name = "TIME", value_parser = Time::parsed)]
    from: Option<Time>,
    /// Where it ends [default: the longest run's end]
    #[arg(long, value_name = "TIME", value_parser = Time::parsed)]
    to: Option<Time>,
    /// Of the picture, 200 to 10000
    #[arg(long, value_name = "PIXELS", default_value_t = 960, value_parser = value_parser!(u32).range(200..=10_000))]
    width: u32,
    /// Of the picture, 200 to 10000
    #[arg(long, value_name = "PIXELS", default_value_t = 480, value_parser = value_parser!(u32).range(200..=10_000))]
    height: u32,
    /// The file to write [default: standard output]
    #[arg(short, value_name = "FILE")]
    output: Option<String>,
}

pub fn act(arguments: &Arguments) -> Result<Verdict, Failure> {
    let axis = arguments.axis.axis()?;
    let folders: Vec<Folder> = arguments.folders.iter().map(|name| opened(name)).collect::<Result<_, _>>()?;
    let (from, to) = shown(arguments, &folders)?;
    let window = Window { from, to, columns: columns(arguments.width) };
    let mut curves = Vec::new();
    for folder in &folders {
        let steps = axis.steps(folder.records()?);
        curves.push((folder.name(), Curve::thinned(steps, folder.rate, end(folder), window)?));
    }
    let picture = drawn(&curves, (from, to), (arguments.width, arguments.height))?;
    output(arguments.output.as_deref(), |out| Ok(out.write_all(picture.as_bytes())?))?;
    Ok(Verdict::Done)
}

/// How near to each other two times may be, as a part of them: nearer ones have no numbers of their own on an axis.
const NEAREST: f64 = 1e-12;

/// A run's last clock in seconds.
fn end(folder: &Folder) -> f64 {
    folder.last_clock as f64 / f64::from(folder.rate)
}

/// The seconds that are shown. Clocks without a unit are those of the first run.
fn shown(arguments: &Arguments, folders: &[Folder]) -> Result<(f64, f64), Failure> {
    let rate = folders.first().map_or(1, |folder| folder.rate);
    let asked = |name: &str, time: Option<Time>| {
        clocks(name, time, rate).map(|clocks| clocks.map(|clocks| clocks as f64 / f64::from(rate)))
    };
    let longest = folders.iter().map(end).fold(0.0, f64::max);
    let from = asked("--from", arguments.from)?.unwrap_or(0.0);
    let to = asked("--to", arguments.to)?.unwrap_or(longest.max(from + 1e-6));
    if to - from > NEAREST * to {
        Ok((from, to))
    } else {
        Err(Failure::Usage("--to does not come behind --from, or is too near to it".to_string()))
    }
}

#[cfg(test)]
mod tests {
    use super::*;

    fn shown_by(options: &str) -> Result<(f64, f64), Failure> {
        let arguments = Arguments::try_parse_from(format!("plot {options}").split_whitespace()).unwrap();
        let mut long = Folder::named("long", 2_000_000);
        long.last_clock = 4_000_000;
        shown(&arguments, &[Folder::named("empty", 1_000_000), long])
    }

    #[test]
    fn the_longest_run_is_shown_whole_or_the_time_asked_for() {
        assert_eq!(shown_by("a b"), Ok((0.0, 2.0)));
        assert_eq!(shown_by("a b --from 500ms --to 1s"), Ok((0.5, 1.0)));
        assert_eq!(shown_by("a b --to 500000"), Ok((0.0, 0.5)));
        assert!(shown_by("a b --from 2s --to 1s").is_err());
        assert!(shown_by("a b --from 5s").is_ok_and(|(from, to)| from < to));
        assert!(shown_by("a b --from 300000000h --to 300000000.0001h").is_err());
    }
}
