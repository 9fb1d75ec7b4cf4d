//! Runs a test image: a file put into memory, started at an address, until the program counter stays at one address.
//!
//! usage: image FILE LOAD START SUCCESS [CLOCKS] Addresses are hexadecimal, CLOCKS, the most that it may take, decimal,
//! 1 to 4,294,967,288. Ends with 0 where the program counter stays at SUCCESS, else with 1 and where it is.

use std::process::ExitCode;

use programs::image::{Ending, Image, MOST};

const CLOCKS: u32 = 400_000_000;

const USAGE: &str =
    "usage: image FILE LOAD START SUCCESS [CLOCKS]; addresses are hexadecimal, CLOCKS is 1 to 4294967288";

struct Asked {
    file: String,
    load: u16,
    start: u16,
    success: u16,
    clocks: u32,
}

fn asked() -> Option<Asked> {
    let arguments: Vec<String> = std::env::args().skip(1).collect();
    let (file, load, start, success, clocks) = match &arguments[..] {
        [file, load, start, success] => (file, load, start, success, CLOCKS),
        [file, load, start, success, clocks] => (file, load, start, success, count(clocks)?),
        _ => return None,
    };
    Some(Asked { file: file.clone(), load: address(load)?, start: address(start)?, success: address(success)?, clocks })
}

fn count(text: &str) -> Option<u32> {
    let clocks = text.parse().ok()?;
    (1..=MOST).contains(&clocks).then_some(clocks)
}

fn address(text: &str) -> Option<u16> {
    u16::from_str_radix(text, 16).ok()
}

fn main() -> ExitCode {
    let Some(asked) = asked() else {
        eprintln!("{USAGE}");
        return ExitCode::from(2);
    };
    match outcome(&asked) {
        Ok((ending, image)) => {
            let success = ending == Ending::Stays(asked.success);
            let registers = image.registers();
            println!(
                "{}: {ending} within {} clocks; {registers}",
                if success { "success" } else { "failure" },
                image.clock()
            );
            ExitCode::from(u8::from(!success))
        }
        Err(error) => {
            eprintln!("{}: {error}", asked.file);
            ExitCode::from(2)
        }
    }
}

fn outcome(asked: &Asked) -> Result<(Ending, Image), String> {
    let file = std::fs::read(&asked.file).map_err(|e| e.to_string())?;
    let mut image = Image::new(&file, asked.load, asked.start)?;
    let ending = image.run(asked.clocks);
    Ok((ending, image))
}
