//! The chip sends all 256 bytes, in each form of a frame or in shift-register mode, and with several latches of counter
//! A. For each case two files go into a folder: NAME.vcd with the lines as the records have them, and NAME.bytes with
//! the bytes that a decoder must find.
//!
//! usage: serial_frames frames|shifted FOLDER. Prints a line for each case.

mod firmware;
mod frames;
mod shifted;
mod vcd;

use firmware::Next;
use std::path::Path;
use std::process::ExitCode;

/// Latches of counter A: the lowest, 9600 baud with 1 and 2 MHz (001, Table 6-1), and others, one above a byte.
const LATCHES: [u16; 5] = [0, 1, 6, 12, 300];

/// SCCR7.
const TRANSMITTER: u8 = 0x80;

const CLOCKS_PER_SECOND: f64 = 1_000_000.0;

fn main() -> ExitCode {
    let arguments: Vec<String> = std::env::args().skip(1).collect();
    let write = match &arguments[..] {
        [what, folder] if what == "frames" => frames::write(Path::new(folder)),
        [what, folder] if what == "shifted" => shifted::write(Path::new(folder)),
        _ => {
            eprintln!("usage: serial_frames frames|shifted FOLDER");
            return ExitCode::from(2);
        }
    };
    match write {
        Ok(()) => ExitCode::SUCCESS,
        Err(error) => {
            eprintln!("{error}");
            ExitCode::FAILURE
        }
    }
}

/// The low bits of 0 to 255, a line each.
fn bytes(data_bits: u8) -> String {
    let mask = (1u16 << data_bits) - 1;
    (0..256u16).map(|byte| format!("{:02X}\n", byte & mask)).collect()
}
