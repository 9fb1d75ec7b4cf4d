// VICE's 6510 core in its two loops (tests/peers/src/peer.h), on a chip's program.

use std::time::Duration;

use programs::chip::RESET_CLOCKS;
use programs::registers::Registers;
use r6501q::State;

use crate::processor_time;
use crate::timed::same_memory;

// Whole instructions until at least so many clocks are done; gives the clocks done.
type Loop = unsafe extern "C" fn(*mut Registers, *mut u8, u64) -> u64;

extern "C" {
    fn peer_6510_run_from(registers: *mut Registers, memory: *mut u8, clocks: u64) -> u64;
    fn peer_6510_machine_run_from(registers: *mut Registers, memory: *mut u8, clocks: u64) -> u64;
}

const MEMORY_LENGTH: usize = 65_536;
const INTERRUPT: u8 = 0x04;

pub struct Vice {
    core: Loop,
    registers: Registers,
    memory: Vec<u8>,
    // As the chip counts them, the reset entry among them.
    clocks: u64,
}

impl Vice {
    // Over plain memory.
    pub fn plain(start: u16, memory: Vec<u8>) -> Vice {
        Vice::new(peer_6510_run_from, start, memory)
    }

    // With what VICE's machines put around the core.
    pub fn machine(start: u16, memory: Vec<u8>) -> Vice {
        Vice::new(peer_6510_machine_run_from, start, memory)
    }

    // As the chip is after its reset entry.
    fn new(core: Loop, start: u16, memory: Vec<u8>) -> Vice {
        assert_eq!(memory.len(), MEMORY_LENGTH);
        Vice {
            core,
            registers: Registers { a: 0, x: 0, y: 0, sp: 0xFF, p: INTERRUPT, pc: start },
            memory,
            clocks: u64::from(RESET_CLOCKS),
        }
    }

    // All instructions that have begun when the chip's clock is this.
    pub fn run_to(&mut self, clock: u32) -> Duration {
        let clocks = u64::from(clock).saturating_sub(self.clocks);
        let (done, time) = processor_time::of(|| {
            // SAFETY: the core stays within the registers and the 65,536 bytes lent as long as the program counter does
            // not run past FFFFh. The busy program runs to its exit and no further.
            unsafe { (self.core)(&mut self.registers, self.memory.as_mut_ptr(), clocks) }
        });
        self.clocks += done;
        time
    }

    // The same registers, clocks and memory as the chip's, or what differs. The chip's registers change on the first
    // clock of an instruction; the others are its wait, with which a store's byte still waits. The program touches no
    // register of the chip, so all memory must be the same.
    pub fn same(&self, state: &State, memory: &[u8]) -> Result<(), String> {
        let registers = Registers::from(state);
        let clocks = u64::from(state.clock) + u64::from(state.cpu.wait);
        if (registers, clocks) != (self.registers, self.clocks) {
            return Err(format!("{registers} and {clocks} clocks, VICE {} and {}", self.registers, self.clocks));
        }
        let mut put = memory.to_vec();
        if state.cpu.waiting.there == 1 {
            put[usize::from(state.cpu.waiting.address)] = state.cpu.waiting.value;
        }
        same_memory(&put, &self.memory)
    }
}
