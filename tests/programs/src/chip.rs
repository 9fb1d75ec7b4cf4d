//! A program on the chip, from reset to its exit.

use r6501q::{Chip, Number, State, Waiting};

use crate::executable::{guarded, Executable};
use crate::registers::Registers;
use crate::services::{called, Services};

/// The clocks of a reset entry (01, One clock, 4).
pub const RESET_CLOCKS: u32 = 7;

/// The chip and what serves its program. No program writes a port, so that there is no space for records, and one that
/// is needed is number 7.
pub struct Served {
    pub chip: Chip,
    pub services: Services,
}

/// What a program comes to.
#[derive(PartialEq, Eq)]
pub struct Outcome {
    pub code: u8,
    pub output: Vec<u8>,
    pub errors: Vec<u8>,
    pub state: State,
    pub memory: Vec<u8>,
}

/// Runs the program until it exits, by runs of so many clocks.
pub fn by_runs(program: &Executable, name: &str, piece: u32, limit: u32) -> Result<Outcome, String> {
    finish(program, name, limit, |chip| chip.call_run(piece.min(limit - chip.state.clock)).number)
}

/// The same by single clocks.
pub fn by_clocks(program: &Executable, name: &str, limit: u32) -> Result<Outcome, String> {
    finish(program, name, limit, |chip| chip.call_step().number)
}

fn finish(program: &Executable, name: &str, limit: u32, go: impl Fn(&mut Chip) -> Number) -> Result<Outcome, String> {
    let mut served = Served::new(program, name);
    while served.chip.state.clock < limit {
        if let Some(code) = match go(&mut served.chip) {
            Number::Done => None,
            number => served.serve(number)?,
        } {
            return served.exit(code);
        }
    }
    Err(format!("no exit in {limit} clocks"))
}

impl Served {
    pub fn new(program: &Executable, name: &str) -> Served {
        let mut chip = Chip::with(State::fresh(), program.memory());
        chip.release();
        Served { chip, services: Services::new(program.c_stack, name) }
    }

    /// The rest of what is at work, on whose last clock a store puts its byte, and the first clock of what comes next,
    /// in which the registers change.
    pub fn begin_next(&mut self) -> Number {
        self.chip.call_run(u32::from(self.chip.state.cpu.wait) + 1).number
    }

    /// The opcode of what comes next, which a store that is at work may put.
    pub fn next_opcode(&self) -> u8 {
        let cpu = &self.chip.state.cpu;
        match cpu.waiting {
            Waiting { there: 1, address, value } if address == cpu.pc => value,
            _ => self.chip.memory[usize::from(cpu.pc)],
        }
    }

    pub fn registers(&self) -> Registers {
        Registers::from(&self.chip.state)
    }

    /// What a call stopped for: a service, whose exit gives its code.
    pub fn serve(&mut self, number: Number) -> Result<Option<u8>, String> {
        let mut registers = self.registers();
        if number != Number::UndefinedOpcode || !called(&registers) {
            return Err(format!("{number}: {registers}"));
        }
        let code = self.services.serve(&mut registers, &mut self.chip.memory)?;
        let cpu = &mut self.chip.state.cpu;
        (cpu.a, cpu.x, cpu.sp, cpu.pc) = (registers.a, registers.x, registers.sp, registers.pc);
        Ok(code)
    }

    pub fn exit(self, code: u8) -> Result<Outcome, String> {
        if !guarded(&self.chip.memory) {
            return Err("the stack came down to the zero page variables".to_string());
        }
        Ok(Outcome {
            code,
            output: self.services.output,
            errors: self.services.errors,
            state: self.chip.state,
            memory: self.chip.memory,
        })
    }
}
