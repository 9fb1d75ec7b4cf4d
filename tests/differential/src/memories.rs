//! Memories: a background, page zero with pointers, the vectors.

use crate::code::{block, handler, Style};
use crate::random::Random;
use plain_clock::opcodes::defined;

pub const LENGTH: usize = 65_536;

/// Backgrounds are made once for a seed and copied for each scenario.
pub struct Backgrounds {
    list: Vec<Vec<u8>>,
}

/// The index that the backgrounds' random numbers have; no scenario has it.
const BACKGROUND_INDEX: u64 = u64::MAX;

/// The background of undefined opcodes alone.
pub const UNDEFINED: usize = 0;

impl Backgrounds {
    pub fn new(seed: u64) -> Self {
        let random = Random::new(seed, BACKGROUND_INDEX);
        let random_bytes = (0..LENGTH).map(|_| random.byte()).collect();
        let defined_opcodes = (0..LENGTH).map(|_| defined_byte(&random)).collect();
        let list = vec![
            vec![0x02; LENGTH],
            vec![0x00; LENGTH],
            vec![0xEA; LENGTH],
            vec![0xFF; LENGTH],
            random_bytes,
            defined_opcodes,
            blocks(&random, Style::Wild),
            blocks(&random, Style::Wild),
            blocks(&random, Style::Quiet),
        ];
        Backgrounds { list }
    }

    pub fn copy(&self, background: usize, memory: &mut [u8]) {
        memory.copy_from_slice(&self.list[background]);
    }

    pub fn any(&self, random: &Random) -> usize {
        random.pick(&[1, 2, 3, 4, 5, 5, 6, 6, 7, 7, 8, 8])
    }
}

fn defined_byte(random: &Random) -> u8 {
    loop {
        let byte = random.byte();
        if defined(byte) {
            return byte;
        }
    }
}

/// Blocks of code from one end to the other, each over the end of the last.
fn blocks(random: &Random, style: Style) -> Vec<u8> {
    let mut memory: Vec<u8> = (0..LENGTH).map(|_| defined_byte(random)).collect();
    for start in (0..LENGTH).step_by(64) {
        block(random, &mut memory, start as u16, style, 24);
    }
    memory
}

/// A pointer to the registers, to the ends of the memory, to a block of code or anywhere.
fn pointer(random: &Random, code: u16) -> u16 {
    match random.below(8) {
        0..=2 => random.below(0x40) as u16,
        3 => 0xFF80 | random.word(),
        4 => code.wrapping_add(random.below(40) as u16),
        5 => random.word() | 0xF0,
        _ => random.word(),
    }
}

/// Page zero from 40h on: pointers at even and odd addresses.
pub fn page_zero(random: &Random, memory: &mut [u8], code: u16) {
    let mut at = random.between(0x40, 0x60) as usize;
    let end = at + random.between(8, 64) as usize;
    while at < end {
        let [low, high] = pointer(random, code).to_le_bytes();
        memory[at] = low;
        memory[at + 1] = high;
        at += random.pick(&[2, 2, 2, 3]);
    }
    let [low, high] = pointer(random, code).to_le_bytes();
    memory[0xFE] = low;
    memory[0xFF] = high;
}

/// The vectors of NMI, reset and IRQ, and handlers where they lead to.
pub fn vectors(random: &Random, memory: &mut [u8], code: u16, style: Style) {
    for (address, own) in [(0xFFFA, 0x3000u16), (0xFFFC, 0), (0xFFFE, 0x3100)] {
        let to_code = address == 0xFFFC && random.percent(90) || random.percent(10);
        let target = match random.below(20) {
            _ if to_code => code,
            0 => random.below(0x40) as u16,
            1 => random.word(),
            _ => own | random.word() & 0x0FFF,
        };
        if !to_code {
            handler(random, memory, target, style);
        }
        let [low, high] = target.to_le_bytes();
        memory[address] = low;
        memory[address + 1] = high;
    }
}
