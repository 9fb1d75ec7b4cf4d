//! The CPU's registers, as the chip and VICE's core both have them.

use r6501q::State;

/// Laid out as `struct peer_registers` (tests/peers/src/peer.h). Bits 4 and 5 of P are 0 (01, Machine state).
#[repr(C)]
#[derive(Clone, Copy, PartialEq, Eq, Debug)]
pub struct Registers {
    pub a: u8,
    pub x: u8,
    pub y: u8,
    pub sp: u8,
    pub p: u8,
    pub pc: u16,
}

impl From<&State> for Registers {
    fn from(state: &State) -> Registers {
        let cpu = &state.cpu;
        Registers { a: cpu.a, x: cpu.x, y: cpu.y, sp: cpu.sp, p: cpu.p, pc: cpu.pc }
    }
}

impl std::fmt::Display for Registers {
    fn fmt(&self, f: &mut std::fmt::Formatter<'_>) -> std::fmt::Result {
        let Registers { a, x, y, sp, p, pc } = self;
        write!(f, "A {a:02X} X {x:02X} Y {y:02X} SP {sp:02X} P {p:02X} PC {pc:04X}")
    }
}
