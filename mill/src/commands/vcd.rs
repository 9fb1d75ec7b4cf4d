//! `mill vcd`: a run's pins as wave forms.
use super::{opened, CODES};
use crate::failure::{Failure, Verdict};
use crate::files::output;
use crate::folder::Folder;
use crate::vcd::{changing, write};
use clap::Parser;
use r6501q::Pin;

/// The pins of a run as a value change dump, for a wave form viewer or sigrok.
#[derive(Parser)]
#[command(after_help = format!("{LEVELS}\n\n{CODES}"))]
#[group(skip)]
pub struct Arguments {
    /// The folder of a run
    #[arg(value_name = "DIR")]
    folder: String,
    /// PA0 to PD7, NMI, RES [default: those that change]
    #[arg(long, value_name = "PIN,PIN..", value_parser = pins)]
    pins: Option<Pins>,
    /// The file to write [default: standard output]
    #[arg(short, value_name = "FILE")]
    output: Option<String>,
}

/// Pins in the order in which they are named. Of a list by its own name clap takes one value, not one for each pin.
type Pins = Vec<Pin>;

const LEVELS: &str = "A port pin is high where the chip drives it high and no input holds it low.";

pub fn act(arguments: &Arguments) -> Result<Verdict, Failure> {
    let folder = opened(&arguments.folder)?;
    let pins = match &arguments.pins {
        Some(pins) => pins.clone(),
        None => changing(folder.records()?, folder.inputs()?)?,
    };
    output(arguments.output.as_deref(), |out| dump(out, &folder, &pins))?;
    Ok(Verdict::Done)
}

fn dump(out: &mut dyn std::io::Write, folder: &Folder, pins: &[Pin]) -> Result<(), crate::files::Failed> {
    write(out, pins, folder.rate, folder.last_clock, folder.records()?, folder.inputs()?)
}

/// Pins by their names, each once.
fn pins(text: &str) -> Result<Vec<Pin>, String> {
    let mut pins: Vec<Pin> = Vec::new();
    for name in text.split(',') {
        let pin = name.trim().parse().map_err(|error| format!("{error}"))?;
        if pins.contains(&pin) {
            return Err(format!("{pin} is named twice"));
        }
        pins.push(pin);
    }
    Ok(pins)
}

#[cfg(test)]
mod tests {
    use super::*;

    #[test]
    fn pins_are_named_once() {
        assert_eq!(pins("PA5, PC0,RES"), Ok(vec![Pin::PA5, Pin::PC0, Pin::RES]));
        for text in ["", "PA5,", "PA5,PA5", "PE0", "PA5;PC0"] {
            assert!(pins(text).is_err(), "{text}");
        }
    }
}
