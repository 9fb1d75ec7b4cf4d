//! A test image on the chip: it says what it found by the address at which the program counter stays.

use r6501q::{Chip, Number, State};

use crate::registers::Registers;

/// The clocks of a piece.
const PIECE: u32 = 1_000_000;

/// The most clocks that can be asked for: the instruction that is looked at behind them, 7 clocks at most, ends within
/// the clock's range.
pub const MOST: u32 = u32::MAX - 7;

/// How a test image ended.
#[derive(Clone, Copy, PartialEq, Eq, Debug)]
pub enum Ending {
    /// An instruction goes to itself, at this address.
    Stays(u16),
    /// An undefined opcode is at this address.
    Undefined(u16),
    /// None of these.
    GoesOn,
}

/// The chip with the image in its memory.
pub struct Image {
    chip: Chip,
}

impl Image {
    /// A fresh chip, released, that has no reset due and starts at an address; the vectors are the image's own.
    pub fn new(file: &[u8], load: u16, start: u16) -> Result<Image, String> {
        let mut memory = vec![0; 0x10000];
        let load = usize::from(load);
        memory.get_mut(load..load + file.len()).ok_or("it reaches past the memory")?.copy_from_slice(file);
        let mut state = State::fresh();
        state.due.reset = 0;
        state.cpu.pc = start;
        let mut chip = Chip::with(state, memory);
        chip.release();
        Ok(Image { chip })
    }

    /// Runs for so many clocks, `MOST` or fewer. After each piece it looks whether the next instruction goes to itself,
    /// which takes up to 7 clocks more.
    pub fn run(&mut self, clocks: u32) -> Ending {
        assert!(clocks <= MOST);
        while self.chip.state.clock < clocks {
            let piece = PIECE.min(clocks - self.chip.state.clock);
            if let Some(ending) = self.go(piece).or_else(|| self.stays()) {
                return ending;
            }
        }
        Ending::GoesOn
    }

    pub fn clock(&self) -> u32 {
        self.chip.state.clock
    }

    pub fn registers(&self) -> Registers {
        Registers::from(&self.chip.state)
    }

    /// So many clocks; the records are of no interest. With no inputs and a clock that stays within its range, an
    /// undefined opcode alone ends them early.
    fn go(&mut self, clocks: u32) -> Option<Ending> {
        match self.chip.run_with(clocks, |_| {}) {
            Ok(()) => None,
            Err(Number::UndefinedOpcode) => Some(Ending::Undefined(self.chip.state.cpu.pc)),
            Err(other) => unreachable!("{other}"),
        }
    }

    /// Whether the next instruction goes to itself.
    fn stays(&mut self) -> Option<Ending> {
        let at = self.chip.state.cpu.pc;
        let ending = self.go(u32::from(self.chip.state.cpu.wait) + 1);
        ending.or((self.chip.state.cpu.pc == at).then_some(Ending::Stays(at)))
    }
}

impl std::fmt::Display for Ending {
    fn fmt(&self, f: &mut std::fmt::Formatter<'_>) -> std::fmt::Result {
        match self {
            Ending::Stays(address) => write!(f, "the program counter stays at {address:04X}h"),
            Ending::Undefined(address) => write!(f, "undefined opcode at {address:04X}h"),
            Ending::GoesOn => write!(f, "the program counter stays nowhere"),
        }
    }
}
