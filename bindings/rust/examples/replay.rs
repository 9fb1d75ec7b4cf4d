//! Runs a tape from standard input and prints its records, as the program `replay` does: 100 clocks from fresh,
//! released on clock 1, no other inputs.
use r6501q::Chip;
use std::io::{self, Read};

const CHARACTERS: u64 = 16_384;
const CLOCKS: u32 = 100;

fn main() -> io::Result<()> {
    let mut tape = Vec::new();
    io::stdin().take(CHARACTERS).read_to_end(&mut tape)?;

    let mut chip = Chip::new();
    if let Err(refused) = chip.load(&tape) {
        eprintln!("{refused}");
        println!("end 0 {}", u8::from(refused.number));
        return Ok(());
    }
    chip.release();
    let done = chip.run_with(CLOCKS, |record| println!("{} {:08X}", record.clock, record.word));
    println!("end {} {}", chip.state.clock, done.map_or_else(u8::from, |()| 0));
    Ok(())
}
