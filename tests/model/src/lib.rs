//! A plain model of the Rockwell R6501Q: one clock at a time, cut like the sentences of document 01.
//!
//! It is written for comparison only. It never skips a clock; the leap count is obtained by looking at each clock.

pub mod accesses;
pub mod clock;
pub mod counters;
pub mod cpu;
pub mod opcodes;
pub mod pins;
pub mod registers;
pub mod run;
pub mod scenario;
pub mod serial;
pub mod shifted;
pub mod state;
pub mod sums;
pub mod tape;

pub use clock::{plain, ClockReport, Met, World};
pub use run::{refusal, run, run_observed, Outcome};
pub use state::{fresh, well_formed, Receiver, State, Transmitter, Turn, Waiting};
pub use tape::load_tape;

#[cfg(test)]
mod tests;
