//! 01, Tape: the program `replay`, with the plain-clock model; RES gets high on clock 1 (document 02, U8).

use plain_clock::{fresh, load_tape, run, World};
use std::io::Read;

const TAPE_LENGTH: u64 = 16_384;
const CLOCKS: u64 = 100;
const RECORDS: usize = 100;

fn main() {
    let mut tape = Vec::new();
    std::io::stdin().take(TAPE_LENGTH).read_to_end(&mut tape).expect("standard input");
    let mut memory = vec![0; 65_536];
    let (refused, _place) = load_tape(&tape, &mut memory);
    if refused != 0 {
        println!("end 0 {refused}");
        return;
    }
    let mut world = World {
        state: fresh(),
        memory,
        input_clocks: Vec::new(),
        input_codes: Vec::new(),
        read: 0,
        output_clocks: vec![0; RECORDS],
        output_words: vec![0; RECORDS],
        written: 0,
        stop: 0,
    };
    world.release();
    let outcome = run(&mut world, CLOCKS, None);
    for record in 0..world.written {
        println!("{} {:08X}", world.output_clocks[record], world.output_words[record]);
    }
    println!("end {} {}", world.state.clock, outcome.number);
}
