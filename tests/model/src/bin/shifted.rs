//! Reads scenario files on standard input, one behind the other, and prints how many bytes they send and receive whole
//! in shift-register mode.

use plain_clock::run_observed;
use plain_clock::scenario::read_file;
use plain_clock::shifted::ShiftedBytes;
use std::io::Read;

fn main() {
    let mut text = Vec::new();
    std::io::stdin().read_to_end(&mut text).expect("standard input");
    let mut bytes = ShiftedBytes::default();
    for mut scenario in read_file(&text).into_iter().filter(|scenario| scenario.tape_number == 0) {
        bytes.start();
        let clocks = u64::from(scenario.clocks);
        run_observed(&mut scenario.world, clocks, None, |before, after, report| bytes.clock(before, after, report));
    }
    println!("{} bytes sent and {} received", bytes.sent, bytes.received);
}
