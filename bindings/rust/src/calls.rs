//! The calls on a chip.
use crate::library::{self, HostCallResult};
use crate::{Number, State};

/// The bytes of a memory.
pub const MEMORY_LENGTH: usize = 65_536;

/// The pin NMI in an input code. Pins 0 to 31 are PA0 to PD7; [`Pin`](crate::Pin) has them by name.
pub const PIN_NMI: u8 = 32;

/// The pin RES in an input code.
pub const PIN_RES: u8 = 33;

// Added to a pin in an input code where the new level is high.
const HIGH: u8 = 64;

/// The input code that sets a pin (0 to 31 for PA0 to PD7, [`PIN_NMI`], [`PIN_RES`]) to a level. A pin above 33 makes a
/// code that is refused.
///
/// ```
/// use r6501q::{code, PIN_RES};
///
/// assert_eq!(code(PIN_RES, false), 33);
/// assert_eq!(code(7, true), 71);
/// ```
#[must_use]
#[inline]
pub const fn code(pin: u8, high: bool) -> u8 {
    if pin > PIN_RES {
        return u8::MAX;
    }
    if high {
        pin + HIGH
    } else {
        pin
    }
}

/// The input that releases a fresh chip, which is held with RES low (document 02, U8): clock and code of RES high on
/// clock 1. It stands behind that clock's other inputs, since no pin is above RES.
/// [`Chip::release`](crate::Chip::release) puts it there.
pub const RELEASE: (u32, u8) = (1, code(PIN_RES, true));

/// What a run or a step hands back.
#[must_use]
#[derive(Clone, Copy, PartialEq, Eq, Debug)]
pub struct CallResult {
    /// [`Number::Done`]; or 1 to 5, with sums 13 too, refused, nothing changed; or 6, 7 or 12, stopped, all as reached.
    pub number: Number,
    /// The chip afterwards; of a refused call the state given.
    pub state: State,
    /// Event clocks done, and 1 more where the last clock done is no event clock; 0 if no clock is done.
    pub leaps: u32,
    /// The input entries read. The next call is lent `&input_clocks[read..]` and `&input_codes[read..]`.
    pub read: usize,
    /// The records written. The next call is lent `&mut output_clocks[written..]` and `&mut output_words[written..]`.
    pub written: usize,
}

/// What a load hands back.
#[must_use]
#[derive(Clone, Copy, PartialEq, Eq, Debug)]
pub struct LoadResult {
    /// [`Number::Done`], [`Number::WrongMemoryLength`], or 8 to 10; with sums also [`Number::WrongSumsLength`].
    pub number: Number,
    /// Done: the index past the last record. 8 to 10: the index of the faulty record's `;`, or the tape's length where
    /// the last record is missing. Wrong memory or page list: 0.
    pub place: usize,
}

// The number that a byte of the library stands for: it is proved to give none above 13.
#[inline]
pub(crate) fn number(byte: u8) -> Number {
    Number::try_from(byte).expect("the library gives 0 to 13")
}

// The halt address as the library takes it: any above 65,535 is none.
#[inline]
pub(crate) fn host_halt(halt: Option<u16>) -> u32 {
    halt.map_or(u32::MAX, u32::from)
}

#[inline]
pub(crate) fn call_result(host: HostCallResult) -> CallResult {
    CallResult {
        number: number(host.number),
        state: host.state,
        leaps: host.leaps,
        read: host.read,
        written: host.written,
    }
}

/// A single clock: what [`run`] hands back and leaves for `n` = 1, `leaps` 1 where the clock is done (0 or 12) and else
/// 0.
///
/// ```
/// use r6501q::{step, Number, State, MEMORY_LENGTH, RELEASE};
///
/// let mut memory = vec![0; MEMORY_LENGTH];
/// let result = step(State::fresh(), &mut memory, &[RELEASE.0], &[RELEASE.1], &mut [], &mut [], None);
/// assert_eq!((result.number, result.leaps, result.read), (Number::Done, 1, 1));
/// assert_eq!((result.state.clock, result.state.cpu.wait), (1, 6)); // the reset entry takes 7 clocks
/// ```
#[inline]
pub fn step(
    state: State,
    memory: &mut [u8],
    input_clocks: &[u32],
    input_codes: &[u8],
    output_clocks: &mut [u32],
    output_words: &mut [u32],
    halt: Option<u16>,
) -> CallResult {
    let halt = host_halt(halt);
    call_result(library::step(state, memory, input_clocks, input_codes, output_clocks, output_words, halt))
}

/// `n` clocks, by leaps from event to event.
///
/// - `memory`: 65,536 bytes; those at 0 to 3Fh, the registers' addresses, are never read or written.
/// - `input_clocks`, `input_codes`: the inputs, absolute clocks and codes ([`code`]). Clocks never fall, the first is
///   above the state's, and within a clock pins rise strictly. Inputs past the last clock are checked too and stay
///   unread.
/// - `output_clocks`, `output_words`: space for a record, clock and driven word, after each clock that changes the
///   driven word (PA0 in bit 0, PD7 in bit 31). Entries from `written` on are never changed.
/// - `n`: how many clocks. With 0 all checks are made and nothing is done.
/// - `halt`: an address, or none. After the first clock in which the CPU writes there, be it the last of the `n`, the
///   run ends with [`Number::HaltedAtWrite`]; that clock is done and recorded. Every write counts: pushes, those of the
///   NMI and IRQ entries too, on the first clock, a store's byte on its last, also one that waits in the state given;
///   and registers, also one that ignores the byte. 6 and 7 for that clock come first. A call with the state handed
///   back goes on behind the write.
///
/// ```
/// use r6501q::{run, Number, State, MEMORY_LENGTH, RELEASE};
/// let (clocks, codes) = (&[RELEASE.0], &[RELEASE.1]);
///
/// // A memory of zeros holds BRK alone, which goes on forever; 02h is undefined.
/// let mut memory = vec![0; MEMORY_LENGTH];
/// let result = run(State::fresh(), &mut memory, clocks, codes, &mut [], &mut [], 1_000, None);
/// assert_eq!((result.number, result.state.clock), (Number::Done, 1_000));
///
/// let mut memory = vec![2; MEMORY_LENGTH];
/// let result = run(State::fresh(), &mut memory, clocks, codes, &mut [], &mut [], 1_000, None);
/// assert_eq!((result.number, result.state.clock), (Number::UndefinedOpcode, 7));
///
/// // Not released, a fresh chip starts nothing; its counters count.
/// let result = run(State::fresh(), &mut memory, &[], &[], &mut [], &mut [], 1_000, None);
/// assert_eq!((result.number, result.state.clock), (Number::Done, 1_000));
/// assert_eq!((result.state.cpu.pc, result.state.peripherals.countera.count), (0, 65_535 - 1_000));
///
/// // PHA alone: a push on clocks 8, 11, 14, .. at 00FFh, 00FEh, 00FDh, ..
/// let mut memory = vec![0x48; MEMORY_LENGTH];
/// let result = run(State::fresh(), &mut memory, clocks, codes, &mut [], &mut [], 1_000, Some(0x00FD));
/// assert_eq!((result.number, result.state.clock), (Number::HaltedAtWrite, 14));
/// let result = run(result.state, &mut memory, &[], &[], &mut [], &mut [], 100, Some(0x00FD));
/// assert_eq!((result.number, result.state.clock), (Number::Done, 114));
///
/// // A memory of another length is refused, and the state given comes back.
/// let result = run(State::fresh(), &mut [0; 100], &[], &[], &mut [], &mut [], 1_000, None);
/// assert_eq!((result.number, result.state), (Number::WrongMemoryLength, State::fresh()));
/// ```
#[inline]
pub fn run(
    state: State,
    memory: &mut [u8],
    input_clocks: &[u32],
    input_codes: &[u8],
    output_clocks: &mut [u32],
    output_words: &mut [u32],
    n: u32,
    halt: Option<u16>,
) -> CallResult {
    let halt = host_halt(halt);
    call_result(library::run(state, memory, input_clocks, input_codes, output_clocks, output_words, n, halt))
}

/// A paper tape into memory (document 01, "Tape"). The tape is checked whole before a byte is stored; a refused tape
/// leaves memory unchanged. Bytes for 0 to 3Fh are dropped.
///
/// ```
/// use r6501q::{load, LoadResult, Number, MEMORY_LENGTH};
///
/// let mut memory = vec![0; MEMORY_LENGTH];
/// let loaded = load(b"text ;010200550058 ;0000020002 more", &mut memory);
/// assert_eq!(loaded, LoadResult { number: Number::Done, place: 30 });
/// assert_eq!(memory[0x200], 0x55);
///
/// let loaded = load(b";010200550059", &mut memory);
/// assert_eq!(loaded, LoadResult { number: Number::WrongCheckSum, place: 0 });
/// ```
#[inline]
pub fn load(tape: &[u8], memory: &mut [u8]) -> LoadResult {
    let host = library::load(tape, memory);
    LoadResult { number: number(host.number), place: host.place }
}
