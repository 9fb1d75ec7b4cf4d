//! Prints the latch value of counter A for a wanted bit rate, or why there is none.
//! usage: latch CLOCKS BITS [THOUSANDTHS]: clocks a second, bits a second, and the tolerance, 15 where none is given
use r6501q::{latch, Latch};
use std::process::ExitCode;

// The error that source document 001, 6.1.5, calls acceptable: 1.5%.
const ACCEPTABLE: u32 = 15;

fn main() -> ExitCode {
    let figures: Result<Vec<u32>, _> = std::env::args().skip(1).map(|word| word.parse()).collect();
    let found = match figures.as_deref() {
        Ok([clock_rate, bit_rate]) => latch(*clock_rate, *bit_rate, ACCEPTABLE),
        Ok([clock_rate, bit_rate, tolerance]) => latch(*clock_rate, *bit_rate, *tolerance),
        _ => {
            eprintln!("usage: latch CLOCKS BITS [THOUSANDTHS]");
            return ExitCode::from(2);
        }
    };
    println!("{found}");
    match found {
        Latch::Fits(_) => ExitCode::SUCCESS,
        Latch::Nothing | Latch::Refused => ExitCode::FAILURE,
    }
}
