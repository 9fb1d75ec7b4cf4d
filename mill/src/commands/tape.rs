//! `mill tape`: images of memory as a paper tape, and a tape checked.
use super::CODES;
use crate::failure::{Failure, Verdict};
use crate::files::{bytes, note, output, print};
use crate::image::Images;
use crate::tape::{loaded, written, Records};
use crate::units::grouped;
use clap::Parser;
use std::path::Path;

/// Makes a paper tape of binary images and Intel hex files, or checks one.
#[derive(PartialEq, Debug, Parser)]
#[command(after_help = CODES, override_usage = "mill tape [--skip-zeros] [-o TAPE] <IMAGE@ADDRESS|HEXFILE>...
       mill tape --check <TAPE>")]
#[group(skip)]
pub struct Arguments {
    /// Binary images, each with the hexadecimal address where it lies, and Intel hex files; or the tape to check
    #[arg(value_name = "IMAGE@ADDRESS|HEXFILE|TAPE", required = true)]
    files: Vec<String>,
    /// Check a tape: name the line, the record, what is found and what is expected
    #[arg(long, conflicts_with_all = ["output", "skip_zeros"])]
    check: bool,
    /// The file to write [default: standard output]
    #[arg(short, value_name = "TAPE")]
    output: Option<String>,
    /// Leave out records of zeros: a shorter tape, the same in a memory of zeros alone
    #[arg(long)]
    skip_zeros: bool,
}

pub fn act(arguments: &Arguments) -> Result<Verdict, Failure> {
    if arguments.check {
        return check(&arguments.files);
    }
    let mut images = Images::none();
    arguments.files.iter().try_for_each(|word| images.add(word))?;
    let which = if arguments.skip_zeros { Records::NotZero } else { Records::Every };
    let tape = written(&images.parts(), which);
    notes(&images);
    output(arguments.output.as_deref(), |out| Ok(out.write_all(tape.as_bytes())?))?;
    Ok(Verdict::Done)
}

/// What a tape may lack, on standard error.
fn notes(images: &Images) {
    if images.at(0xFFFC).is_none() || images.at(0xFFFD).is_none() {
        note("mill: note: no image has the reset vector, FFFCh and FFFDh");
    }
    if images.has_registers() {
        note("mill: note: bytes for 0000h to 003Fh, the registers' addresses, are dropped when a tape is loaded");
    }
}

fn check(files: &[String]) -> Result<Verdict, Failure> {
    let [name] = files else {
        return Err(Failure::Usage("--check takes one tape".to_string()));
    };
    let tape = bytes(Path::new(name))?;
    let memory = loaded(name, &tape)?;
    let bytes = memory.iter().filter(|byte| **byte != 0).count() as u64;
    let vector = u16::from_le_bytes([memory[0xFFFC], memory[0xFFFD]]);
    print(&format!("{name}: right, {} bytes that are not zero, reset vector {vector:04X}h\n", grouped(bytes)))?;
    Ok(Verdict::Done)
}

#[cfg(test)]
mod tests {
    use super::*;

    fn ended(words: &[&str]) -> Result<Verdict, Failure> {
        let arguments = Arguments::try_parse_from(["tape"].iter().chain(words));
        arguments.map_err(|error| Failure::Usage(error.to_string())).and_then(|arguments| act(&arguments))
    }

    #[test]
    fn images_and_checks_are_told_apart() {
        let tape = concat!(env!("CARGO_MANIFEST_DIR"), "/../examples/mill.tape");
        assert_eq!(ended(&["--check", tape]), Ok(Verdict::Done));
        assert_eq!(ended(&[&format!("{tape}@0800"), "-o", "/dev/null"]), Ok(Verdict::Done));
        assert!(matches!(ended(&["--check", tape, tape]), Err(Failure::Usage(_))));
        assert!(matches!(ended(&["--check", tape, "-o", "/dev/null"]), Err(Failure::Usage(_))));
        assert!(matches!(ended(&["--check", tape, "--skip-zeros"]), Err(Failure::Usage(_))));
        assert!(matches!(ended(&[tape]), Err(Failure::Usage(_))));
        assert!(matches!(ended(&["--check", "/dev/null"]), Err(Failure::Tape(_))));
    }
}
