//! A chip that runs past 32 bits of clock: pieces of a run, each lent the inputs of its clocks and space for records.
//!
//! The library's clock has 32 bits. Where it has grown far, it is set back to 0 and the inputs' clocks are lowered by
//! as much: states that are alike but for the clock, with input lists alike but for the same shift, go on alike
//! (docs/LAB.md, "Long runs").
use crate::failure::Failure;
use crate::input::Input;
use r6501q::{run, Number, State};
use std::iter::Peekable;

/// The sizes of a session's parts. What a run gives is the same whatever they are.
#[derive(Clone, Copy, Debug)]
pub struct Sizes {
    /// Clocks of a piece, at most; at least 1.
    pub piece: u32,
    /// Records that there is space for; at least 1.
    pub space: u32,
    /// The library's clock from which on it is set back, at most 2^31.
    pub set_back: u32,
}

impl Default for Sizes {
    fn default() -> Sizes {
        Sizes { piece: 1 << 20, space: 4_096, set_back: 1 << 31 }
    }
}

/// Who is told of what a run reads and records, each in order.
pub trait Sink {
    /// An input that was read.
    fn input(&mut self, input: Input) -> Result<(), Failure>;
    /// A change of the driven word.
    fn record(&mut self, clock: u64, word: u32) -> Result<(), Failure>;
}

/// A chip with its memory and the inputs to come.
pub struct Session<I: Iterator<Item = Input>> {
    state: State,
    memory: Vec<u8>,
    /// The clocks by which the library's clock was set back.
    base: u64,
    sizes: Sizes,
    inputs: Peekable<I>,
    /// Inputs that were taken for a piece and are not read yet.
    window: Vec<Input>,
    output_clocks: Vec<u32>,
    output_words: Vec<u32>,
}

impl<I: Iterator<Item = Input>> Session<I> {
    /// A fresh chip with this memory. The inputs are in order, from clock 1 on.
    pub fn fresh(memory: Vec<u8>, inputs: I, sizes: Sizes) -> Session<I> {
        Session {
            state: State::fresh(),
            memory,
            base: 0,
            sizes,
            inputs: inputs.peekable(),
            window: Vec::new(),
            output_clocks: vec![0; sizes.space as usize],
            output_words: vec![0; sizes.space as usize],
        }
    }

    /// The clocks done.
    pub fn now(&self) -> u64 {
        self.base + u64::from(self.state.clock)
    }

    /// The chip's state; its clock is the library's.
    pub fn state(&self) -> &State {
        &self.state
    }

    /// The byte in memory at an address; none for the registers' addresses.
    pub fn byte(&self, address: u16) -> Option<u8> {
        if address < 0x40 {
            None
        } else {
            self.memory.get(usize::from(address)).copied()
        }
    }

    /// The clock of the next input that is not read yet.
    pub fn next_input(&mut self) -> Option<u64> {
        self.window.first().or(self.inputs.peek()).map(|input| input.clock)
    }

    /// Runs to a clock, or to a stop before it: 0 where the clock is reached, 12 behind a write to the halt address.
    pub fn advance(&mut self, to: u64, halt: Option<u16>, sink: &mut impl Sink) -> Result<Number, Failure> {
        while self.now() < to {
            if self.state.clock >= self.sizes.set_back {
                self.base += u64::from(self.state.clock);
                self.state.clock = 0;
            }
            let clocks = (to - self.now()).min(u64::from(self.sizes.piece)) as u32;
            let number = self.piece(clocks, halt, sink)?;
            if number != Number::Done {
                return Ok(number);
            }
        }
        Ok(Number::Done)
    }

    /// So many clocks, in as many calls as the space for records makes necessary.
    fn piece(&mut self, clocks: u32, halt: Option<u16>, sink: &mut impl Sink) -> Result<Number, Failure> {
        let end = self.state.clock + clocks;
        let (input_clocks, input_codes) = self.lend(self.base + u64::from(end));
        let mut read = 0;
        loop {
            let result = run(
                self.state,
                &mut self.memory,
                &input_clocks[read..],
                &input_codes[read..],
                &mut self.output_clocks,
                &mut self.output_words,
                end - self.state.clock,
                halt,
            );
            self.state = result.state;
            self.window[read..read + result.read].iter().try_for_each(|input| sink.input(*input))?;
            read += result.read;
            self.hand_on(result.written, sink)?;
            if result.number != Number::NoFreeRecord {
                self.window.drain(..read);
                return Ok(result.number);
            }
        }
    }

    /// The inputs up to a clock, as the library takes them.
    fn lend(&mut self, last: u64) -> (Vec<u32>, Vec<u8>) {
        while let Some(input) = self.inputs.next_if(|input| input.clock <= last) {
            self.window.push(input);
        }
        let clocks = self.window.iter().map(|input| (input.clock - self.base) as u32);
        (clocks.collect(), self.window.iter().map(|input| input.pin.code(input.level)).collect())
    }

    fn hand_on(&mut self, written: usize, sink: &mut impl Sink) -> Result<(), Failure> {
        let records = self.output_clocks.iter().zip(&self.output_words).take(written);
        records.into_iter().try_for_each(|(clock, word)| sink.record(self.base + u64::from(*clock), *word))
    }
}

#[cfg(test)]
mod tests {
    use super::*;
    use crate::input::list;
    use r6501q::MEMORY_LENGTH;

    /// Keeps all that it is told.
    #[derive(Default, PartialEq, Debug)]
    struct Kept {
        inputs: Vec<String>,
        records: Vec<(u64, u32)>,
    }

    impl Sink for Kept {
        fn input(&mut self, input: Input) -> Result<(), Failure> {
            self.inputs.push(input.fields().join(","));
            Ok(())
        }

        fn record(&mut self, clock: u64, word: u32) -> Result<(), Failure> {
            self.records.push((clock, word));
            Ok(())
        }
    }

    /// Copies port B to port C and counts on port A.
    fn copying() -> Vec<u8> {
        let mut memory = vec![0; MEMORY_LENGTH];
        memory[0x0200..0x0209].copy_from_slice(&[0xA5, 0x01, 0x85, 0x02, 0xE6, 0x00, 0x4C, 0x00, 0x02]);
        memory[0xFFFD] = 2;
        memory
    }

    fn inputs() -> Vec<Input> {
        let text: String = (1..500).map(|i| format!("{},PB{},{}\n", 37 * i, i % 8, u8::from(i % 3 == 0))).collect();
        list(&format!("1,RES,1\n{text}")).unwrap()
    }

    fn kept(sizes: Sizes, cuts: &[u64]) -> (Kept, u64, u16) {
        let mut session = Session::fresh(copying(), inputs().into_iter(), sizes);
        let mut kept = Kept::default();
        for cut in cuts {
            assert_eq!(session.advance(*cut, None, &mut kept), Ok(Number::Done));
            assert_eq!(session.now(), *cut);
        }
        (kept, session.now(), session.state().cpu.pc)
    }

    #[test]
    fn pieces_space_and_set_backs_change_nothing() {
        let whole = kept(Sizes::default(), &[20_000]);
        assert!(whole.0.records.len() > 1_000 && whole.0.inputs.len() == 500);
        for sizes in [
            Sizes { piece: 1, space: 1, set_back: 1 },
            Sizes { piece: 7, space: 3, set_back: 50 },
            Sizes { piece: 1 << 20, space: 1, set_back: 1 << 31 },
            Sizes { piece: 1_000, space: 4_096, set_back: 999 },
        ] {
            assert_eq!(kept(sizes, &[20_000]), whole);
            assert_eq!(kept(sizes, &[1, 2, 37, 38, 10_000, 20_000]), whole);
        }
    }

    #[test]
    fn halts_change_nothing() {
        let whole = kept(Sizes::default(), &[20_000]);
        for sizes in [Sizes::default(), Sizes { piece: 7, space: 3, set_back: 50 }] {
            let mut session = Session::fresh(copying(), inputs().into_iter(), sizes);
            let (mut kept, mut halts) = (Kept::default(), 0);
            while session.now() < 20_000 {
                match session.advance(20_000, Some(0x0002), &mut kept) {
                    Ok(Number::HaltedAtWrite) => halts += 1,
                    number => assert_eq!(number, Ok(Number::Done)),
                }
                let next = inputs().into_iter().find(|input| input.clock > session.now());
                assert_eq!(session.next_input(), next.map(|input| input.clock));
            }
            assert!(halts > 1_000);
            assert_eq!((kept, session.now(), session.state().cpu.pc), whole);
        }
    }

    #[test]
    fn an_undefined_opcode_is_a_stop() {
        let mut memory = copying();
        memory[0x0206] = 0xDA;
        let mut session = Session::fresh(memory, list("1,RES,1").unwrap().into_iter(), Sizes::default());
        assert_eq!(session.advance(1_000, None, &mut Kept::default()), Ok(Number::UndefinedOpcode));
        assert_eq!((session.state().cpu.pc, session.byte(0x0206), session.byte(0x3F)), (0x0206, Some(0xDA), None));
        assert!(session.now() < 30);
    }

    #[test]
    fn past_32_bits_it_goes_on() {
        let inputs = list("1,RES,1\n1000,RES,0\n5000000000,RES,1").unwrap();
        let mut session = Session::fresh(copying(), inputs.into_iter(), Sizes::default());
        let mut kept = Kept::default();
        assert_eq!(session.advance(5_000_000_999, None, &mut kept), Ok(Number::Done));
        let early: Vec<(u64, u32)> = kept.records.iter().copied().filter(|(clock, _)| *clock < 900).collect();
        let late: Vec<(u64, u32)> = kept.records.iter().filter(|(clock, _)| *clock > 5_000_000_000).copied().collect();
        let shifted: Vec<(u64, u32)> = early.iter().map(|(clock, word)| (clock + 4_999_999_999, *word)).collect();
        assert!(shifted.len() > 50);
        assert_eq!(late[..shifted.len()], shifted);
    }
}
