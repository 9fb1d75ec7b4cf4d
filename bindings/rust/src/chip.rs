//! A chip that owns its state, its memory and its lists.
use crate::{load, load_with_sums, page_sums, run, run_with_sums, step, step_with_sums};
use crate::{CallResult, Level, Number, Pin, Record, State, MEMORY_LENGTH};
use std::error::Error;
use std::fmt;

// Free records that are made at once, where there are none.
const SPACE: usize = 4_096;

/// A chip with its state, its memory, the inputs to come and the records not taken yet.
///
/// [`run`](Chip::run) and [`step`](Chip::step) make space for records as it is needed, so that 7 does not occur;
/// [`run_with`](Chip::run_with) hands the records on piece by piece, so that a long run takes little memory.
///
/// ```
/// use r6501q::{Chip, Level, Number, Pin};
///
/// // INC 00h, then again: a record on clock 12 and each 8 clocks. PB0 falls meanwhile, which changes no drive.
/// let mut chip = Chip::new();
/// chip.memory[0x0200..0x0205].copy_from_slice(&[0xE6, 0x00, 0x4C, 0x00, 0x02]);
/// chip.memory[0xFFFC..0xFFFE].copy_from_slice(&0x0200u16.to_le_bytes());
/// chip.input(1_000, Pin::PB0, Level::Low)?;
/// chip.release();
///
/// let mut records = 0;
/// chip.run_with(1_000_000, |_record| records += 1)?;
/// assert_eq!((chip.state.clock, records), (1_000_000, 124_999));
///
/// chip.step()?;
/// chip.run(99)?;
/// assert_eq!(chip.take_records().len(), 13);
/// # Ok::<(), Number>(())
/// ```
///
/// With a [halt address](Chip#structfield.halt) a run ends after the clock of the next write there. The next run goes on
/// behind it:
///
/// ```
/// use r6501q::{Chip, Number};
///
/// // INC 40h, then again: its byte is put on clock 12 and each 8 clocks.
/// let mut chip = Chip::new();
/// chip.memory[0x0200..0x0205].copy_from_slice(&[0xE6, 0x40, 0x4C, 0x00, 0x02]);
/// chip.memory[0xFFFC..0xFFFE].copy_from_slice(&0x0200u16.to_le_bytes());
/// chip.halt = Some(0x0040);
/// chip.release();
///
/// let mut clocks = Vec::new();
/// while let Err(number) = chip.run(30 - chip.state.clock) {
///     assert_eq!(number, Number::HaltedAtWrite);
///     clocks.push(chip.state.clock);
/// }
/// assert_eq!((clocks, chip.state.clock), (vec![12, 20, 28], 30));
/// ```
#[derive(Clone, Debug)]
pub struct Chip {
    /// The state. One that is not well-formed is refused with 2.
    pub state: State,
    /// The memory. One that is not 65,536 bytes is refused with 1.
    pub memory: Vec<u8>,
    /// The halt address, none at first: each run and step ends with 12 after the clock of a write there, that clock done
    /// and recorded. The next one goes on behind that write; set it to `None` to go on without halts.
    pub halt: Option<u16>,
    /// The page sums beside the memory (document 02, U7), none at first. Where they are there, each run, step and load
    /// changes them as its bytes change; ones that are not 256 are refused with 13. [`keep_sums`](Chip::keep_sums) puts
    /// right ones here, [`total`](crate::total) adds them up.
    pub sums: Option<Vec<u16>>,
    input_clocks: Vec<u32>,
    input_codes: Vec<u8>,
    read: usize,
    output_clocks: Vec<u32>,
    output_words: Vec<u32>,
    written: usize,
    leaps: u64,
}

// Which call of the library.
#[derive(Clone, Copy)]
enum Call {
    Run(u32),
    Step,
}

impl Chip {
    /// A fresh chip with a memory of zeros. It is held until [`release`](Chip::release), or another input that makes
    /// RES high.
    #[must_use]
    pub fn new() -> Chip {
        Chip::with(State::fresh(), vec![0; MEMORY_LENGTH])
    }

    /// A chip with this state and memory, no inputs and no records.
    #[must_use]
    pub fn with(state: State, memory: Vec<u8>) -> Chip {
        Chip {
            state,
            memory,
            halt: None,
            sums: None,
            input_clocks: Vec::new(),
            input_codes: Vec::new(),
            read: 0,
            output_clocks: Vec::new(),
            output_words: Vec::new(),
            written: 0,
            leaps: 0,
        }
    }

    /// A paper tape into memory, as [`load`] does it. Gives the place past its last record.
    ///
    /// # Errors
    /// 1, 13, 8, 9 or 10; memory is unchanged then, and so are the sums.
    ///
    /// ```
    /// let refused = r6501q::Chip::new().load(b"tape ;010200550059").unwrap_err();
    /// assert_eq!(refused.to_string(), "a tape record's check sum is wrong (9), at character 5");
    /// ```
    pub fn load(&mut self, tape: &[u8]) -> Result<usize, RefusedTape> {
        let result = match &mut self.sums {
            Some(sums) => load_with_sums(tape, &mut self.memory, sums),
            None => load(tape, &mut self.memory),
        };
        match result.number {
            Number::Done => Ok(result.place),
            number => Err(RefusedTape { number, place: result.place }),
        }
    }

    /// Keeps page sums from now on, the right ones of the memory as it stands ([`page_sums`]), until
    /// [`sums`](Chip#structfield.sums) is set to `None`. They stay right as long as nothing but the chip's calls
    /// changes the memory.
    ///
    /// ```
    /// use r6501q::{total, Chip};
    ///
    /// // INC 40h, then again: its byte is put on clock 12 and each 8 clocks.
    /// let mut chip = Chip::new();
    /// chip.memory[0x0200..0x0205].copy_from_slice(&[0xE6, 0x40, 0x4C, 0x00, 0x02]);
    /// chip.memory[0xFFFC..0xFFFE].copy_from_slice(&0x0200u16.to_le_bytes());
    /// chip.keep_sums();
    /// chip.release();
    /// chip.run(30)?;
    /// assert_eq!(chip.memory[0x40], 3);
    /// assert_eq!(chip.sums.as_deref().map(total), Some(Ok(0xE6 + 0x40 + 0x4C + 2 + 2 + 3)));
    /// # Ok::<(), r6501q::Number>(())
    /// ```
    pub fn keep_sums(&mut self) {
        self.sums = Some(page_sums(&self.memory).to_vec());
    }

    /// Appends an input: on this clock the pin gets this level from outside.
    ///
    /// # Errors
    /// 5 where the clock is not above the state's, or comes before the last input's, or is the same and the pin is not
    /// behind that one's. Nothing is appended then.
    ///
    /// ```
    /// use r6501q::{Chip, Level, Number, Pin};
    ///
    /// let mut chip = Chip::new();
    /// assert_eq!(chip.input(5, Pin::PA7, Level::Low), Ok(()));
    /// assert_eq!(chip.input(5, Pin::RES, Level::Low), Ok(()));
    /// assert_eq!(chip.input(5, Pin::PA0, Level::Low), Err(Number::WrongPinList));
    /// assert_eq!(chip.input(4, Pin::PA7, Level::Low), Err(Number::WrongPinList));
    /// ```
    pub fn input(&mut self, clock: u32, pin: Pin, level: Level) -> Result<(), Number> {
        let behind_last = match (self.input_clocks[self.read..].last(), self.input_codes[self.read..].last()) {
            (Some(last), Some(code)) => (clock, pin.number()) > (*last, code % 64),
            _ => true,
        };
        if clock <= self.state.clock || !behind_last {
            return Err(Number::WrongPinList);
        }
        self.input_clocks.push(clock);
        self.input_codes.push(pin.code(level));
        Ok(())
    }

    /// Releases a chip that is held by RES, as a fresh one is (document 02, U8): on the next clock RES gets high,
    /// behind that clock's other inputs. Nothing is added where the inputs set RES on that clock themselves. Call it
    /// when the inputs of that clock are there: none of them can be appended behind it.
    ///
    /// ```
    /// use r6501q::{Chip, Level, Pin};
    ///
    /// let mut chip = Chip::new();
    /// chip.run(5)?;
    /// assert_eq!((chip.state.due.reset, chip.state.last.res), (1, 0)); // held
    /// chip.input(6, Pin::PA0, Level::Low)?;
    /// chip.input(8, Pin::PA0, Level::High)?;
    /// chip.release();
    /// chip.run(1)?;
    /// assert_eq!((chip.state.due.reset, chip.state.last.res, chip.state.cpu.wait), (0, 1, 6)); // in the reset entry
    /// assert_eq!(chip.read(), 2);
    /// # Ok::<(), r6501q::Number>(())
    /// ```
    pub fn release(&mut self) {
        let Some(next) = self.state.clock.checked_add(1) else { return };
        let behind = self.due(1).min(self.input_codes.len());
        let set = self.input_codes[self.read..behind].last().is_some_and(|code| code % 64 == Pin::RES.number());
        if !set {
            self.input_clocks.insert(behind, next);
            self.input_codes.insert(behind, Pin::RES.code(Level::High));
        }
    }

    /// `n` clocks. The records stay in the chip until [`take_records`](Chip::take_records).
    ///
    /// # Errors
    /// 1 to 5 and 13, refused, nothing changed; 6, stopped, and 12, halted, all as reached. Lists set by
    /// [`set_inputs`](Chip::set_inputs) are checked up to the last of these clocks.
    pub fn run(&mut self, n: u32) -> Result<(), Number> {
        self.go_on(n, |chip| chip.make_space(chip.written))
    }

    /// `n` clocks, as [`run`](Chip::run) does them; each record, those not taken yet first, is handed to `take` in
    /// order, also where the run ends with an error. The space stays small.
    ///
    /// # Errors
    /// As [`run`](Chip::run).
    pub fn run_with(&mut self, n: u32, mut take: impl FnMut(Record)) -> Result<(), Number> {
        let done = self.go_on(n, |chip| {
            chip.hand_on(&mut take);
            chip.make_space(0);
        });
        self.hand_on(&mut take);
        done
    }

    /// One clock.
    ///
    /// # Errors
    /// As [`run`](Chip::run).
    pub fn step(&mut self) -> Result<(), Number> {
        if self.free() == 0 {
            self.make_space(self.written);
        }
        self.call(Call::Step, self.due(1)).number.done()
    }

    /// The records not taken yet, in order.
    pub fn records(&self) -> impl Iterator<Item = Record> + '_ {
        let records = self.output_clocks.iter().zip(&self.output_words).take(self.written);
        records.map(|(&clock, &word)| Record { clock, word })
    }

    /// Takes the records: their space is free again.
    pub fn take_records(&mut self) -> Vec<Record> {
        let records = self.records().collect();
        self.written = 0;
        records
    }

    /// The leaps of all calls so far, each call's by document 01's count.
    #[must_use]
    pub fn leaps(&self) -> u64 {
        self.leaps
    }

    // Runs until n clocks are done or another number than 7 ends it; `room` makes space for records before each call.
    fn go_on(&mut self, n: u32, mut room: impl FnMut(&mut Chip)) -> Result<(), Number> {
        let mut left = n;
        loop {
            let before = self.state.clock;
            if self.free() == 0 {
                room(self);
            }
            match self.call(Call::Run(left), self.due(left)).number {
                Number::NoFreeRecord => left -= self.state.clock - before,
                number => return number.done(),
            }
        }
    }

    // The end of the inputs that n clocks can read. A call checks all that it is lent, so that a long list would cost
    // each call anew. Lists of unequal length are lent whole, and refused.
    fn due(&self, n: u32) -> usize {
        let clocks = &self.input_clocks[self.read..];
        let last = self.state.clock.saturating_add(n);
        if self.input_clocks.len() != self.input_codes.len() {
            return self.input_clocks.len();
        }
        match clocks.first() {
            Some(first) if *first <= last => self.read + clocks.partition_point(|clock| *clock <= last),
            _ => self.read,
        }
    }

    // One call of the library, lent the inputs up to an end and all free records.
    fn call(&mut self, call: Call, end: usize) -> CallResult {
        let codes_end = if end == self.input_clocks.len() { self.input_codes.len() } else { end };
        let clocks = &self.input_clocks[self.read..end];
        let codes = &self.input_codes[self.read..codes_end];
        let output_clocks = &mut self.output_clocks[self.written..];
        let output_words = &mut self.output_words[self.written..];
        let (state, memory, halt) = (self.state, &mut self.memory, self.halt);
        let result = match (call, &mut self.sums) {
            (Call::Run(n), None) => run(state, memory, clocks, codes, output_clocks, output_words, n, halt),
            (Call::Step, None) => step(state, memory, clocks, codes, output_clocks, output_words, halt),
            (Call::Run(n), Some(sums)) => {
                run_with_sums(state, memory, sums, clocks, codes, output_clocks, output_words, n, halt)
            }
            (Call::Step, Some(sums)) => {
                step_with_sums(state, memory, sums, clocks, codes, output_clocks, output_words, halt)
            }
        };
        self.state = result.state;
        self.read += result.read;
        self.written += result.written;
        self.leaps += u64::from(result.leaps);
        result
    }

    fn free(&self) -> usize {
        self.output_clocks.len() - self.written
    }

    // Twice the space in use, and not too little.
    fn make_space(&mut self, used: usize) {
        let entries = (2 * used).max(SPACE).max(self.output_clocks.len());
        self.output_clocks.resize(entries, 0);
        self.output_words.resize(entries, 0);
    }

    fn hand_on(&mut self, take: &mut impl FnMut(Record)) {
        self.records().for_each(take);
        self.written = 0;
    }
}

/// The lists as the library has them, whole and unchecked, for those who compare calls.
impl Chip {
    /// Puts these in place of the inputs, be they right or damaged; none of them is read yet.
    pub fn set_inputs(&mut self, clocks: &[u32], codes: &[u8]) {
        refill(&mut self.input_clocks, clocks);
        refill(&mut self.input_codes, codes);
        self.read = 0;
    }

    /// Puts these in place of the output lists, all free, whatever they hold. Lists of unequal length are refused with
    /// 3.
    pub fn set_space(&mut self, clocks: &[u32], words: &[u32]) {
        refill(&mut self.output_clocks, clocks);
        refill(&mut self.output_words, words);
        self.written = 0;
    }

    /// One call of [`run`], with sums of [`run_with_sums`], lent the whole rest of the inputs and the free records as
    /// they are.
    pub fn call_run(&mut self, n: u32) -> CallResult {
        self.call(Call::Run(n), self.input_clocks.len())
    }

    /// One call of [`step`], with sums of [`step_with_sums`], lent the same.
    pub fn call_step(&mut self) -> CallResult {
        self.call(Call::Step, self.input_clocks.len())
    }

    /// The inputs read so far.
    #[must_use]
    pub fn read(&self) -> usize {
        self.read
    }

    /// The records not taken yet.
    #[must_use]
    pub fn written(&self) -> usize {
        self.written
    }

    /// The output clocks, whole: records and free entries.
    #[must_use]
    pub fn output_clocks(&self) -> &[u32] {
        &self.output_clocks
    }

    /// The output words, whole.
    #[must_use]
    pub fn output_words(&self) -> &[u32] {
        &self.output_words
    }
}

fn refill<T: Copy>(list: &mut Vec<T>, with: &[T]) {
    list.clear();
    list.extend_from_slice(with);
}

impl Default for Chip {
    fn default() -> Chip {
        Chip::new()
    }
}

/// Why a tape was refused, and where.
#[derive(Clone, Copy, PartialEq, Eq, Debug)]
pub struct RefusedTape {
    /// 1, 13, 8, 9 or 10.
    pub number: Number,
    /// The index of the faulty record's `;`, or the tape's length where the last record is missing.
    pub place: usize,
}

impl fmt::Display for RefusedTape {
    fn fmt(&self, f: &mut fmt::Formatter<'_>) -> fmt::Result {
        write!(f, "{}, at character {}", self.number, self.place)
    }
}

impl Error for RefusedTape {}
