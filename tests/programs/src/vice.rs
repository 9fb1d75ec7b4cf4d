//! VICE's 6510 core, linked from tests/peers, beside the chip: after each instruction both must have the same
//! registers, and it must have taken as many clocks.

use r6501q::{Number, State};

use crate::chip::{Outcome, Served, RESET_CLOCKS};
use crate::executable::Executable;
use crate::registers::Registers;
use crate::services::{called, Services};

extern "C" {
    /// Whole instructions until at least so many clocks are done (tests/peers/src/peer.h).
    fn peer_6510_run_from(registers: *mut Registers, memory: *mut u8, clocks: u64) -> u64;
}

/// The registers are the chip's own: their bytes in memory are never touched (01, Machine state).
const MEMORY: std::ops::Range<usize> = 0x40..0x10000;

const INTERRUPT: u8 = 0x04;

/// The core, its memory and what serves its program.
struct Vice {
    registers: Registers,
    memory: Vec<u8>,
    services: Services,
}

/// Branches that sim65 times by another rule. For the extra clock of a taken branch the chip and VICE compare the
/// target's page with that of the next instruction, sim65 with that of the branch itself.
#[derive(Default)]
pub struct Branches {
    /// Taken into the branch's own page, from a next instruction in the page behind: one clock more on the chip.
    pub longer: u32,
    /// Taken into the next instruction's page, from a branch in the page before: one clock more on sim65.
    pub shorter: u32,
}

/// What the program came to on both, in how many instructions, and with which opcodes.
pub struct Beside {
    pub outcome: Outcome,
    pub instructions: u64,
    pub opcodes: [bool; 256],
    pub branches: Branches,
}

/// Runs the program on both until it exits.
pub fn beside(program: &Executable, name: &str, limit: u32) -> Result<Beside, String> {
    let mut served = Served::new(program, name);
    let mut vice = Vice::new(program, name);
    let mut branches = Branches::default();
    let mut instructions = 0;
    let mut opcodes = [false; 256];
    expect_done(&mut served)?; // the reset entry
    let mut clocks = u64::from(RESET_CLOCKS);
    same(&served, &vice, clocks)?;
    while served.chip.state.clock < limit {
        let at = served.registers();
        let opcode = served.next_opcode();
        match served.begin_next() {
            Number::Done => {
                clocks += vice.instruction();
                instructions += 1;
                opcodes[usize::from(opcode)] = true;
                branches.count(opcode, at.pc, &served.chip.state);
            }
            number => {
                let code = served.serve(number)?;
                if code != vice.serve()? {
                    return Err("the two exit otherwise".to_string());
                }
                if let Some(code) = code {
                    same_ends(&served, &vice)?;
                    let outcome = served.exit(code)?;
                    return Ok(Beside { outcome, instructions, opcodes, branches });
                }
            }
        }
        same(&served, &vice, clocks).map_err(|e| format!("after {at}: {e}"))?;
    }
    Err(format!("no exit in {limit} clocks"))
}

fn expect_done(served: &mut Served) -> Result<(), String> {
    served.begin_next().done().map_err(|number| number.to_string())
}

/// The same registers, and the chip's clock with its wait is the clocks of all instructions.
fn same(served: &Served, vice: &Vice, clocks: u64) -> Result<(), String> {
    let taken = u64::from(served.chip.state.clock) + u64::from(served.chip.state.cpu.wait);
    if served.registers() == vice.registers && taken == clocks {
        return Ok(());
    }
    Err(format!("{} and {taken} clocks, VICE {} and {clocks}", served.registers(), vice.registers))
}

/// The same memory and output at the exit.
fn same_ends(served: &Served, vice: &Vice) -> Result<(), String> {
    if let Some(at) = MEMORY.into_iter().find(|i| served.chip.memory[*i] != vice.memory[*i]) {
        return Err(format!("{at:04X}h holds {:02X}h, on VICE {:02X}h", served.chip.memory[at], vice.memory[at]));
    }
    if served.services.output != vice.services.output || served.services.errors != vice.services.errors {
        return Err("the output differs from VICE's".to_string());
    }
    Ok(())
}

impl Vice {
    /// As the chip is after its reset entry.
    fn new(program: &Executable, name: &str) -> Vice {
        Vice {
            registers: Registers { a: 0, x: 0, y: 0, sp: 0xFF, p: INTERRUPT, pc: program.start },
            memory: program.memory(),
            services: Services::new(program.c_stack, name),
        }
    }

    /// One instruction. Gives its clocks.
    fn instruction(&mut self) -> u64 {
        assert_eq!(self.memory.len(), 0x10000);
        // The core stays within the registers and the 65,536 bytes lent.
        unsafe { peer_6510_run_from(&mut self.registers, self.memory.as_mut_ptr(), 1) }
    }

    fn serve(&mut self) -> Result<Option<u8>, String> {
        if !called(&self.registers) {
            return Err(format!("VICE calls no service: {}", self.registers));
        }
        self.services.serve(&mut self.registers, &mut self.memory)
    }
}

impl Branches {
    /// The chip has just begun this opcode, which was at `from`: counts it where it is a branch taken.
    fn count(&mut self, opcode: u8, from: u16, after: &State) {
        if opcode & 0x1F != 0x10 || after.cpu.wait < 2 {
            return;
        }
        let page = |address: u16| address >> 8;
        let (next, to) = (from.wrapping_add(2), after.cpu.pc);
        self.longer += u32::from(page(to) != page(next) && page(to) == page(from));
        self.shorter += u32::from(page(to) == page(next) && page(to) != page(from));
    }
}
