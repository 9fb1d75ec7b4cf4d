//! A program file for sim65: a header of twelve bytes, then what goes into memory.

use crate::services;

const HEADER: usize = 12;
const RESET_VECTOR: usize = 0xFFFC;

/// An undefined opcode: a call of a service stops there with number 6.
const UNDEFINED: u8 = 0x02;

/// sim65 fills its memory with this, so a program that reads what it never wrote reads the same here.
const FILL: u8 = 0xFF;

/// Between the zero page variables and the stack (chip.cfg). A stack that comes down this far writes here.
const GUARD: std::ops::Range<usize> = 0x80..0x90;
const GUARD_FILL: u8 = 0x5A;

/// What the header says, and the bytes behind it.
pub struct Executable {
    /// Where in the zero page the pointer to the C stack is.
    pub c_stack: u8,
    pub start: u16,
    load: u16,
    body: Vec<u8>,
}

impl Executable {
    /// The file taken apart, or what is wrong with it.
    pub fn parse(file: &[u8]) -> Result<Executable, String> {
        if file.len() < HEADER || &file[..5] != b"sim65" {
            return Err("no program for sim65".to_string());
        }
        if file[5] != 2 || file[6] != 0 {
            return Err("no header of version 2 for the 6502".to_string());
        }
        let load = u16::from_le_bytes([file[8], file[9]]);
        let body = file[HEADER..].to_vec();
        if usize::from(load) + body.len() > usize::from(services::FIRST) {
            return Err("longer than the memory".to_string());
        }
        Ok(Executable { c_stack: file[7], start: u16::from_le_bytes([file[10], file[11]]), load, body })
    }

    /// The memory that the program starts in.
    pub fn memory(&self) -> Vec<u8> {
        let mut memory = vec![FILL; 0x10000];
        let load = usize::from(self.load);
        memory[load..load + self.body.len()].copy_from_slice(&self.body);
        memory[usize::from(services::FIRST)..=usize::from(services::LAST)].fill(UNDEFINED);
        memory[RESET_VECTOR..RESET_VECTOR + 2].copy_from_slice(&self.start.to_le_bytes());
        memory[GUARD].fill(GUARD_FILL);
        memory
    }
}

/// Whether the stack stayed off the zero page variables.
pub fn guarded(memory: &[u8]) -> bool {
    memory[GUARD].iter().all(|b| *b == GUARD_FILL)
}
