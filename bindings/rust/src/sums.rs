//! Page sums beside the memory (document 02, U7).
use crate::calls::{call_result, host_halt, number};
use crate::{library, CallResult, LoadResult, Number, State};

/// The sums of a page list, one for each 256 bytes of a memory.
pub const SUMS_LENGTH: usize = 256;

// The bytes of a page.
const PAGE: usize = 256;

/// The right page sums of a memory: entry p is the sum of its bytes 256 × p to 256 × p + 255 as they stand, page 0
/// with those at 0 to 3Fh. It goes over all bytes, in plain Rust; from then on the calls with sums keep them right. Of
/// a memory that is not 65,536 bytes, which is refused with 1, the pages that it lacks are 0 and those above are left
/// out.
///
/// ```
/// use r6501q::{page_sums, total, MEMORY_LENGTH};
///
/// let sums = page_sums(&vec![0xFF; MEMORY_LENGTH]);
/// assert_eq!(sums, [65_280; 256]);
/// assert_eq!(total(&sums), Ok(0)); // 16,711,680 = 255 × 65,536
/// ```
#[must_use]
pub fn page_sums(memory: &[u8]) -> [u16; SUMS_LENGTH] {
    let mut sums = [0; SUMS_LENGTH];
    for (sum, page) in sums.iter_mut().zip(memory.chunks(PAGE)) {
        *sum = page.iter().map(|byte| u16::from(*byte)).sum();
    }
    sums
}

/// The total of 256 page sums, modulo 65,536. Where all are right it is the sum of all bytes of the memory modulo
/// 65,536, in whatever order the pages stand.
///
/// # Errors
/// [`Number::WrongSumsLength`] where they are not 256.
///
/// ```
/// use r6501q::{total, Number};
///
/// assert_eq!(total(&[300; 256]), Ok(11_264)); // 76,800 - 65,536
/// assert_eq!(total(&[300; 255]), Err(Number::WrongSumsLength));
/// ```
#[inline]
pub fn total(sums: &[u16]) -> Result<u16, Number> {
    let host = library::total(sums);
    number(host.number).done().map(|()| host.total)
}

/// `n` clocks with page sums: in all that [`run`](crate::run) hands back and leaves the same, and each entry of `sums`,
/// right or wrong before, changes by exactly what its page's bytes change, modulo 65,536: by the new sum of the page
/// less the old one. Right sums stay right. A register written changes no byte and no sum; a store's byte counts on its
/// last clock. On a stop the sums have changed by the clocks done, on a refusal they have not changed.
///
/// Refused with [`Number::WrongSumsLength`], directly after 1 and before 2, where `sums` are not 256. Sums of zeros are
/// right beside a memory of zeros; [`page_sums`] takes those of any other.
///
/// ```
/// use r6501q::{page_sums, run_with_sums, total, Number, State, MEMORY_LENGTH, RELEASE};
///
/// // LDA #05h, STA 1234h over 10h, put on clock 13; then a jump in place.
/// let mut memory = vec![0; MEMORY_LENGTH];
/// memory[0x0200..0x0208].copy_from_slice(&[0xA9, 0x05, 0x8D, 0x34, 0x12, 0x4C, 0x05, 0x02]);
/// (memory[0x1234], memory[0xFFFD]) = (0x10, 2);
/// let (clocks, codes) = (&[RELEASE.0], &[RELEASE.1]);
///
/// let mut sums = page_sums(&memory);
/// assert_eq!((sums[0x12], total(&sums)), (0x10, Ok(486)));
/// let result = run_with_sums(State::fresh(), &mut memory, &mut sums, clocks, codes, &mut [], &mut [], 100, None);
/// assert_eq!((result.number, sums[0x12], total(&sums)), (Number::Done, 0x05, Ok(475)));
/// assert_eq!(sums, page_sums(&memory));
///
/// // Wrong sums change by as much.
/// memory[0x1234] = 0x10;
/// let mut sums = [0; 256];
/// let result = run_with_sums(State::fresh(), &mut memory, &mut sums, clocks, codes, &mut [], &mut [], 100, None);
/// assert_eq!((result.number, sums[0x12], total(&sums)), (Number::Done, 65_525, Ok(65_525)));
///
/// let result = run_with_sums(State::fresh(), &mut memory, &mut [], clocks, codes, &mut [], &mut [], 100, None);
/// assert_eq!((result.number, result.state), (Number::WrongSumsLength, State::fresh()));
/// ```
#[inline]
pub fn run_with_sums(
    state: State,
    memory: &mut [u8],
    sums: &mut [u16],
    input_clocks: &[u32],
    input_codes: &[u8],
    output_clocks: &mut [u32],
    output_words: &mut [u32],
    n: u32,
    halt: Option<u16>,
) -> CallResult {
    call_result(library::run_with_sums(
        state,
        memory,
        sums,
        input_clocks,
        input_codes,
        output_clocks,
        output_words,
        n,
        host_halt(halt),
    ))
}

/// A single clock with page sums: what [`run_with_sums`] hands back and leaves for `n` = 1.
///
/// ```
/// use r6501q::{step_with_sums, Number, State, Waiting, MEMORY_LENGTH};
///
/// let mut state = State::fresh();
/// (state.external.res, state.last.res) = (1, 1);
/// (state.cpu.wait, state.cpu.waiting) = (1, Waiting::byte(0x4000, 0x56));
/// let (mut memory, mut sums) = (vec![0; MEMORY_LENGTH], [0; 256]);
/// let result = step_with_sums(state, &mut memory, &mut sums, &[], &[], &mut [], &mut [], None);
/// assert_eq!((result.number, memory[0x4000], sums[0x40]), (Number::Done, 0x56, 0x56));
/// ```
#[inline]
pub fn step_with_sums(
    state: State,
    memory: &mut [u8],
    sums: &mut [u16],
    input_clocks: &[u32],
    input_codes: &[u8],
    output_clocks: &mut [u32],
    output_words: &mut [u32],
    halt: Option<u16>,
) -> CallResult {
    call_result(library::step_with_sums(
        state,
        memory,
        sums,
        input_clocks,
        input_codes,
        output_clocks,
        output_words,
        host_halt(halt),
    ))
}

/// A paper tape into memory with page sums: in all that [`load`](crate::load) hands back and leaves the same, and each
/// entry of `sums` changes by what its page's bytes change. A refused tape leaves the sums unchanged. Where they are
/// not 256 it is [`Number::WrongSumsLength`] with place 0, directly after 1 and whatever the tape.
///
/// ```
/// use r6501q::{load_with_sums, total, LoadResult, Number, MEMORY_LENGTH};
///
/// let (mut memory, mut sums) = (vec![0; MEMORY_LENGTH], [0; 256]);
/// let loaded = load_with_sums(b";010200550058 ;0000020002", &mut memory, &mut sums);
/// assert_eq!(loaded, LoadResult { number: Number::Done, place: 25 });
/// assert_eq!((sums[2], total(&sums)), (0x55, Ok(0x55)));
///
/// let loaded = load_with_sums(b";010200AA0059", &mut memory, &mut sums);
/// assert_eq!((loaded.number, sums[2]), (Number::WrongCheckSum, 0x55));
/// let loaded = load_with_sums(b";010200AA0059", &mut memory, &mut sums[1..]);
/// assert_eq!(loaded, LoadResult { number: Number::WrongSumsLength, place: 0 });
/// ```
#[inline]
pub fn load_with_sums(tape: &[u8], memory: &mut [u8], sums: &mut [u16]) -> LoadResult {
    let host = library::load_with_sums(tape, memory, sums);
    LoadResult { number: number(host.number), place: host.place }
}
