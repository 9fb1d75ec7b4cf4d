//! Reads a scenario file on standard input and prints each scenario's records and end line.

use std::io::Read;

fn main() {
    let mut text = Vec::new();
    std::io::stdin().read_to_end(&mut text).expect("standard input");
    print!("{}", plain_clock::scenario::perform_file(&text));
}
