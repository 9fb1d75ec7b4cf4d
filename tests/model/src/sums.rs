//! Document 02, U7: "Keep 256 page sums, each modulo 65,536, beside the memory."
//!
//! Each page's sum is taken from the bytes themselves, before a call and after it.

use crate::clock::{ClockReport, World};
use crate::run::{run_observed, Outcome, MEMORY_LENGTH};
use crate::state::State;
use crate::tape::load_tape;

/// "256 page sums".
pub const PAGES: usize = 256;
/// The bytes of a page: entry p is of bytes 256 × p to 256 × p + 255.
const PAGE_LENGTH: usize = 256;

/// The sum of each page's bytes as they stand, page 0 with those at 0 to 3Fh.
pub fn page_sums(memory: &[u8]) -> [u32; PAGES] {
    let mut sums = [0; PAGES];
    for (sum, page) in sums.iter_mut().zip(memory.chunks(PAGE_LENGTH)) {
        // 256 bytes are far from 32 bits' end; without a check for it the compiler adds many at once.
        *sum = page.iter().fold(0, |sum: u32, &byte| sum.wrapping_add(u32::from(byte)));
    }
    sums
}

/// Whether there is a sum for each page of a memory, and every one is its page's.
pub fn right(sums: &[u16], memory: &[u8]) -> bool {
    refusal_by_length(memory.len(), sums.len()) == 0
        && page_sums(memory).iter().zip(sums).all(|(&page, &sum)| page == u32::from(sum))
}

/// "changes each sum, right or wrong before, by exactly what its page's bytes change, modulo 65,536".
pub fn change(sums: &mut [u16], before: &[u32; PAGES], after: &[u32; PAGES]) {
    for (page, sum) in sums.iter_mut().enumerate() {
        let changed = i64::from(*sum) + i64::from(after[page]) - i64::from(before[page]);
        *sum = changed.rem_euclid(65_536) as u16;
    }
}

/// "(13: a page list not of 256 sums, like 1 and directly after it.)" Gives 1 or 13, or 0 where neither refuses.
pub fn refusal_by_length(memory_length: usize, sums_length: usize) -> u8 {
    if memory_length != MEMORY_LENGTH {
        1
    } else if sums_length != PAGES {
        13
    } else {
        0
    }
}

/// A run with sums: "Unless 13 refuses it, a run with sums moves the machine just as a run lacking them."
pub fn run_with_sums(world: &mut World, sums: &mut [u16], n: u64, halt: Option<u16>) -> Outcome {
    run_with_sums_observed(world, sums, n, halt, |_, _, _| {})
}

/// The same, showing each done clock as `run_observed` does.
pub fn run_with_sums_observed(
    world: &mut World,
    sums: &mut [u16],
    n: u64,
    halt: Option<u16>,
    observe: impl FnMut(&State, &State, &ClockReport),
) -> Outcome {
    let number = refusal_by_length(world.memory.len(), sums.len());
    if number != 0 {
        return Outcome { number, leaps: 0, inputs_read: 0, records_written: 0 };
    }
    let before = page_sums(&world.memory);
    let outcome = run_observed(world, n, halt, observe);
    change(sums, &before, &page_sums(&world.memory));
    outcome
}

/// A tape load with sums. 13 has place 0, like 1, whatever the tape.
pub fn load_tape_with_sums(tape: &[u8], memory: &mut [u8], sums: &mut [u16]) -> (u8, usize) {
    let number = refusal_by_length(memory.len(), sums.len());
    if number != 0 {
        return (number, 0);
    }
    let before = page_sums(memory);
    let loaded = load_tape(tape, memory);
    change(sums, &before, &page_sums(memory));
    loaded
}

/// The total of 256 sums, modulo 65,536; 13 with total 0 where they are not 256.
pub fn total(sums: &[u16]) -> (u8, u16) {
    if sums.len() != PAGES {
        return (13, 0);
    }
    let sum: u64 = sums.iter().map(|&sum| u64::from(sum)).sum();
    (0, (sum % 65_536) as u16)
}

/// "the straight sum of all bytes modulo 65,536".
pub fn straight_sum(memory: &[u8]) -> u16 {
    let sum: u64 = memory.iter().map(|&byte| u64::from(byte)).sum();
    (sum % 65_536) as u16
}
