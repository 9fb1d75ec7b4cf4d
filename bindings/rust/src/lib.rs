//! A Rockwell R6501Q, clock by clock: safe calls of the proved library.
//!
//! [`Chip`] owns all that a chip needs. Load a tape, append inputs, release it from RES, run, take the records:
//!
//! ```
//! use r6501q::{Chip, Level, Pin, Record};
//!
//! // Stores 55h in port A and then jumps in place.
//! let mut chip = Chip::new();
//! chip.load(b";070200A95585004C040201DE\n;02FFFC000201FF\n;0000030003\n")?;
//! chip.input(20, Pin::PA0, Level::Low)?;
//! chip.release();
//! chip.run(100)?;
//! assert_eq!(chip.take_records(), [Record { clock: 12, word: 0xFFFF_FF55 }]);
//! # Ok::<(), Box<dyn std::error::Error>>(())
//! ```
//!
//! Below it are the plain calls [`load`], [`run`] and [`step`]. They hold nothing between calls: the caller keeps the
//! chip's [`State`], its memory of 65,536 bytes and its lists, and lends them to each call. Every call comes back with
//! one of document 01's numbers ([`Number`]), whatever it is given, and none panics. A run goes by leaps from event to
//! event and, where it is not refused, ends as the same number of single clocks would. Inputs are two lists of equal
//! length, clocks and codes ([`code`] makes one); outputs are two lists, clocks and driven words. A call gives back how
//! many entries it has read and written, and the next call is lent the rest. A fresh chip is held with RES low until an
//! input makes it high (document 02, U8), as [`RELEASE`] does on clock 1:
//!
//! ```
//! use r6501q::{code, run, step, Number, State, MEMORY_LENGTH, RELEASE};
//!
//! let mut memory = vec![0; MEMORY_LENGTH];
//! memory[0xFFFD] = 2; // the reset vector: 0200h
//! memory[0x200..0x203].copy_from_slice(&[0x4C, 0x00, 0x02]); // jumps in place
//! let input_clocks = [RELEASE.0, 5, 5, 9];
//! let input_codes = [RELEASE.1, code(0, false), code(1, false), code(0, true)];
//! let (mut output_clocks, mut output_words) = ([0; 8], [0; 8]);
//!
//! let first =
//!     run(State::fresh(), &mut memory, &input_clocks, &input_codes, &mut output_clocks, &mut output_words, 8, None);
//! assert_eq!((first.number, first.read), (Number::Done, 3));
//! assert_eq!(first.state.external.ports, 0xFFFF_FFFC);
//!
//! let (input_clocks, input_codes) = (&input_clocks[first.read..], &input_codes[first.read..]);
//! let (output_clocks, output_words) = (&mut output_clocks[first.written..], &mut output_words[first.written..]);
//! let next = step(first.state, &mut memory, input_clocks, input_codes, output_clocks, output_words, None);
//! assert_eq!((next.number, next.read), (Number::Done, 1));
//! assert_eq!(next.state.peripherals.control.ifr & 1, 1); // the rise of PA0 set IFR0
//! ```
//!
//! A store puts its byte on its last clock (document 02, U6): a call that ends before it leaves the byte
//! [waiting](Waiting) in the state, and the next call puts it.
//!
//! A run halts after the first clock that writes at a chosen address (document 02, U4): the last parameter of [`run`]
//! and [`step`], or [`Chip::halt`](Chip#structfield.halt).
//!
//! [`run_with_sums`], [`step_with_sums`] and [`load_with_sums`] keep the byte sums of a memory's 256 pages beside it
//! (document 02, U7), of which [`total`] is the sum of all bytes; or set [`Chip::sums`](Chip#structfield.sums):
//!
//! ```
//! use r6501q::{total, Chip};
//!
//! let mut chip = Chip::new();
//! chip.sums = Some(vec![0; 256]); // right beside a memory of zeros
//! chip.load(b";070200A95585004C040201DE\n;02FFFC000201FF\n;0000030003\n")?;
//! chip.release();
//! chip.run(100)?;
//! assert_eq!(chip.sums.as_deref().map(total), Some(Ok(471)));
//! # Ok::<(), Box<dyn std::error::Error>>(())
//! ```
//!
//! [`latch`] finds a latch value of counter A for a wanted bit rate; it needs no chip:
//!
//! ```
//! use r6501q::{latch, Latch};
//!
//! assert_eq!(latch(1_000_000, 62_500, 0), Latch::Fits(0));
//! assert_eq!(latch(1_000_000, 9_600, 20), Latch::Nothing);
//! ```
#![deny(missing_docs)]
#![deny(unsafe_code)]

mod calls;
mod chip;
mod frame;
mod latch;
mod library;
mod number;
mod pin;
mod record;
mod state;
mod sums;

pub use calls::{code, load, run, step, CallResult, LoadResult, MEMORY_LENGTH, PIN_NMI, PIN_RES, RELEASE};
pub use chip::{Chip, RefusedTape};
pub use frame::{Frame, Parity};
pub use latch::{latch, Latch, HIGHEST_RATE, HIGHEST_TOLERANCE};
pub use number::{NotANumber, Number};
pub use pin::{Level, NotAPin, Pin};
pub use record::Record;
pub use state::{
    Control, CounterA, CounterB, Cpu, Due, Levels, Peripherals, Ports, Receiver, SerialData, State, Transmitter,
    Waiting,
};
pub use sums::{load_with_sums, page_sums, run_with_sums, step_with_sums, total, SUMS_LENGTH};

// README's Rust is compiled and run with the other examples.
#[cfg(doctest)]
#[doc = include_str!("../../../README.md")]
struct Readme;
