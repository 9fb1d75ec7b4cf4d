//! Firmware on the chip and on the plain-clock model: a mill's, and small loops. Each is an image of memory from 0800h
//! on that bench/assemble has made, with the inputs that go with it.

use std::path::Path;

use r6501q::{Frame, Level, Pin, MEMORY_LENGTH};

/// Inputs as the library takes them: clocks and codes.
pub type Inputs = (Vec<u32>, Vec<u8>);

/// Where an image begins (examples/image.cfg).
const START: usize = 0x0800;

/// When the first byte or input comes: the firmware has set all registers by then.
pub const FIRST: u32 = 2_000;

/// A bit is 16 ticks, a tick latch A + 1 clocks.
pub const fn clocks_per_bit(latch: u32) -> u32 {
    16 * (latch + 1)
}

/// What comes in while a firmware runs.
#[derive(Clone, Copy)]
enum Coming {
    Nothing,
    /// Moves for the mill on PA7 with latch A 6, one each so many clocks.
    Moves {
        each: u32,
    },
    /// Bytes on PA7, one right behind the other.
    Bytes {
        latch: u32,
    },
    /// PB0 changes each so many clocks.
    Changes {
        each: u32,
    },
}

pub struct Firmware {
    /// As in the tables.
    pub name: &'static str,
    /// The image's file.
    pub image: &'static str,
    coming: Coming,
}

pub const ALL: [Firmware; 9] = [
    Firmware { name: "mill, interrupt handler", image: "mill_interrupt", coming: Coming::Moves { each: 8_000 } },
    Firmware { name: "mill, polled", image: "mill_polled", coming: Coming::Moves { each: 8_000 } },
    Firmware { name: "counter and port", image: "counter", coming: Coming::Nothing },
    Firmware { name: "a register polled", image: "poll", coming: Coming::Nothing },
    Firmware { name: "a port written", image: "port", coming: Coming::Nothing },
    Firmware { name: "serial both ways, latch 0", image: "serial_0", coming: Coming::Bytes { latch: 0 } },
    Firmware { name: "serial both ways, latch 6", image: "serial_6", coming: Coming::Bytes { latch: 6 } },
    Firmware { name: "serial both ways, latch 12", image: "serial_12", coming: Coming::Bytes { latch: 12 } },
    Firmware { name: "an input each 100 clocks", image: "work", coming: Coming::Changes { each: 100 } },
];

impl Firmware {
    /// By the name of its image.
    pub fn find(image: &str) -> Option<&'static Firmware> {
        ALL.iter().find(|firmware| firmware.image == image)
    }

    /// A memory with its image.
    pub fn memory(&self, made: &Path) -> Result<Vec<u8>, String> {
        memory(made, self.image)
    }

    /// The inputs of so many clocks.
    pub fn inputs(&self, clocks: u32) -> Inputs {
        match self.coming {
            Coming::Nothing => Inputs::default(),
            Coming::Moves { each } => {
                let moves = (FIRST..clocks).step_by(each as usize).zip(0..);
                frames(moves.map(|(clock, i)| (clock, a_move(i))), clocks_per_bit(6))
            }
            Coming::Bytes { latch } => {
                let bit = clocks_per_bit(latch);
                let frame = bit * Frame::EIGHT_BITS.levels(0).len() as u32;
                let bytes = (FIRST..clocks).step_by(frame as usize).zip(0..);
                frames(bytes.map(|(clock, i): (u32, u32)| (clock, i as u8)), bit)
            }
            Coming::Changes { each } => {
                let changes = (FIRST..clocks).step_by(each as usize).zip(0..);
                changes.map(|(clock, i): (u32, u32)| (clock, Pin::PB0.code(Level::from(i % 2 == 1)))).unzip()
            }
        }
    }
}

/// A memory with an image, from the folder of what is made.
pub fn memory(made: &Path, image: &str) -> Result<Vec<u8>, String> {
    let file = made.join("images").join(image);
    let image = std::fs::read(&file).map_err(|e| format!("{}: {e}", file.display()))?;
    let mut memory = vec![0; START];
    memory.extend(image);
    match memory.len() {
        MEMORY_LENGTH => Ok(memory),
        _ => Err(format!("{} does not end at FFFFh", file.display())),
    }
}

/// Moves of 0 to 15 steps, forward and backward (examples/mill.s), drawn by a linear congruence.
fn a_move(i: u32) -> u8 {
    let drawn = i.wrapping_mul(1_103_515_245).wrapping_add(12_345) >> 16;
    (drawn & 0x8F) as u8
}

/// Frames on PA7, each from its clock on; an entry for each change of level.
pub fn frames(bytes: impl Iterator<Item = (u32, u8)>, bit: u32) -> Inputs {
    let mut inputs = Inputs::default();
    let mut last = Level::High;
    for (start, byte) in bytes {
        for (clock, level) in (start..).step_by(bit as usize).zip(Frame::EIGHT_BITS.levels(byte)) {
            if level != last {
                inputs.0.push(clock);
                inputs.1.push(Pin::PA7.code(level));
                last = level;
            }
        }
    }
    inputs
}
