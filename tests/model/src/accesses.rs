//! The accesses of one clock, in order: 01, One clock, 4, "All its reads and writes happen now, each once"; but a
//! store's write is an access of its last clock (document 02, U6).

use crate::registers::REGISTERS_END;

/// The most accesses of one clock: BRK reads its opcode, pushes three bytes and reads two of the vector.
const MOST: usize = 6;

#[derive(Clone, Copy, PartialEq, Eq, Debug)]
pub enum AccessKind {
    Read,
    /// The read of a read-modify-write instruction.
    ReadToModify,
    Write,
}

#[derive(Clone, Copy, PartialEq, Eq, Debug)]
pub struct Access {
    pub kind: AccessKind,
    pub address: u16,
    /// The byte read or written.
    pub value: u8,
    /// The memory's byte before a write at 40h or above.
    before: u8,
}

const NO_ACCESS: Access = Access { kind: AccessKind::Read, address: 0, value: 0, before: 0 };

#[derive(Clone, Copy, PartialEq, Eq, Debug)]
pub struct Accesses {
    list: [Access; MOST],
    length: usize,
}

impl Access {
    /// Whether it writes a byte that the memory held already.
    pub fn writes_the_same(&self) -> bool {
        self.kind == AccessKind::Write && self.address >= REGISTERS_END && self.value == self.before
    }
}

impl Accesses {
    pub fn none() -> Self {
        Accesses { list: [NO_ACCESS; MOST], length: 0 }
    }

    pub fn list(&self) -> &[Access] {
        &self.list[..self.length]
    }

    pub fn add(&mut self, kind: AccessKind, address: u16, value: u8, before: u8) {
        self.list[self.length] = Access { kind, address, value, before };
        self.length += 1;
    }

    /// Whether an address is written, a register's too, be it one that ignores the byte (document 02, U4).
    pub fn writes(&self, address: u16) -> bool {
        self.list().iter().any(|access| access.kind == AccessKind::Write && access.address == address)
    }

    /// Puts back what was written to the memory, the last write first. Registers are part of the state.
    pub fn undo(&self, memory: &mut [u8]) {
        for access in self.list().iter().rev() {
            if access.kind == AccessKind::Write && access.address >= REGISTERS_END {
                memory[usize::from(access.address)] = access.before;
            }
        }
    }
}
