//! What sim65 does for a program that calls FFF4h to FFF9h: open, close, read, write, arguments, exit. The argument
//! passed last is in A and X, the others on the C stack, whose pointer is in the zero page. The result goes to A and X.

use std::fs::File;
use std::io::Read;

use crate::registers::Registers;

/// The first and the last of the addresses.
pub const FIRST: u16 = OPEN;
pub const LAST: u16 = EXIT;

const OPEN: u16 = 0xFFF4;
const CLOSE: u16 = 0xFFF5;
const READ: u16 = 0xFFF6;
const WRITE: u16 = 0xFFF7;
const ARGUMENTS: u16 = 0xFFF8;
const EXIT: u16 = 0xFFF9;

const FAILED: u16 = 0xFFFF;
const READ_ONLY: u16 = 0x01;

/// Descriptors 0, 1 and 2 are the standard ones; files come behind them.
const STANDARD: usize = 3;

/// Open files, and what the program has written to standard output and standard error.
pub struct Services {
    c_stack: u8,
    name: String,
    files: Vec<Option<File>>,
    pub output: Vec<u8>,
    pub errors: Vec<u8>,
}

/// Whether PC is at one of the addresses.
pub fn called(registers: &Registers) -> bool {
    (FIRST..=LAST).contains(&registers.pc)
}

impl Services {
    pub fn new(c_stack: u8, name: &str) -> Services {
        Services { c_stack, name: name.to_string(), files: Vec::new(), output: Vec::new(), errors: Vec::new() }
    }

    /// Does the work of the address that PC is at, and returns to the caller. An exit gives its code instead.
    pub fn serve(&mut self, registers: &mut Registers, memory: &mut [u8]) -> Result<Option<u8>, String> {
        let last = u16::from_le_bytes([registers.a, registers.x]);
        let result = match registers.pc {
            OPEN => self.open(registers.y, memory)?,
            CLOSE => self.close(last),
            READ => self.read(last, memory)?,
            WRITE => self.write(last, memory)?,
            ARGUMENTS => self.arguments(last, memory),
            EXIT => return Ok(Some(registers.a)),
            pc => return Err(format!("no service at {pc:04X}h")),
        };
        [registers.a, registers.x] = result.to_le_bytes();
        let address = [pull(registers, memory), pull(registers, memory)];
        registers.pc = u16::from_le_bytes(address).wrapping_add(1);
        Ok(None)
    }

    /// The word on the C stack, whose pointer then goes up by `size`.
    fn argument(&self, size: u8, memory: &mut [u8]) -> u16 {
        let pointer = word(memory, u16::from(self.c_stack));
        put(memory, u16::from(self.c_stack), pointer.wrapping_add(u16::from(size)));
        word(memory, pointer)
    }

    /// Files are there to be read. None of the programs writes one.
    fn open(&mut self, size: u8, memory: &mut [u8]) -> Result<u16, String> {
        if size > 4 {
            self.argument(size - 4, memory);
        }
        let flags = self.argument(2, memory);
        let place = self.argument(2, memory);
        let name = text(memory, place);
        if flags != READ_ONLY {
            return Err(format!("{name} is opened with flags {flags:02X}h"));
        }
        match File::open(&name) {
            Ok(file) => {
                self.files.push(Some(file));
                Ok((STANDARD + self.files.len() - 1) as u16)
            }
            Err(_) => Ok(FAILED),
        }
    }

    fn close(&mut self, descriptor: u16) -> u16 {
        let open = usize::from(descriptor).checked_sub(STANDARD).and_then(|i| self.files.get_mut(i));
        match open.and_then(Option::take) {
            Some(_) => 0,
            None => FAILED,
        }
    }

    /// Standard input is empty.
    fn read(&mut self, count: u16, memory: &mut [u8]) -> Result<u16, String> {
        let place = self.argument(2, memory);
        let descriptor = self.argument(2, memory);
        if descriptor == 0 {
            return Ok(0);
        }
        let open = usize::from(descriptor).checked_sub(STANDARD).and_then(|i| self.files.get_mut(i));
        let Some(Some(file)) = open else {
            return Ok(FAILED);
        };
        let mut bytes = Vec::new();
        file.take(u64::from(count)).read_to_end(&mut bytes).map_err(|e| e.to_string())?;
        for (i, byte) in bytes.iter().enumerate() {
            memory[usize::from(place.wrapping_add(i as u16))] = *byte;
        }
        Ok(bytes.len() as u16)
    }

    fn write(&mut self, count: u16, memory: &mut [u8]) -> Result<u16, String> {
        let place = self.argument(2, memory);
        let descriptor = self.argument(2, memory);
        let written = match descriptor {
            1 => &mut self.output,
            2 => &mut self.errors,
            _ => return Err(format!("descriptor {descriptor} is written")),
        };
        written.extend((0..count).map(|i| memory[usize::from(place.wrapping_add(i))]));
        Ok(count)
    }

    /// One argument, the program's name, with its list, below the C stack.
    fn arguments(&mut self, list: u16, memory: &mut [u8]) -> u16 {
        let top = word(memory, u16::from(self.c_stack));
        let pointers = top.wrapping_sub(4);
        let name = pointers.wrapping_sub(self.name.len() as u16 + 1);
        for (i, byte) in self.name.bytes().chain([0]).enumerate() {
            memory[usize::from(name.wrapping_add(i as u16))] = byte;
        }
        put(memory, list, pointers);
        put(memory, pointers, name);
        put(memory, pointers.wrapping_add(2), 0);
        put(memory, u16::from(self.c_stack), name);
        1
    }
}

/// A byte from the stack, which is in page zero (001, 3.1.3).
fn pull(registers: &mut Registers, memory: &[u8]) -> u8 {
    registers.sp = registers.sp.wrapping_add(1);
    memory[usize::from(registers.sp)]
}

fn word(memory: &[u8], address: u16) -> u16 {
    u16::from_le_bytes([memory[usize::from(address)], memory[usize::from(address.wrapping_add(1))]])
}

fn put(memory: &mut [u8], address: u16, value: u16) {
    let [low, high] = value.to_le_bytes();
    memory[usize::from(address)] = low;
    memory[usize::from(address.wrapping_add(1))] = high;
}

/// The text at an address, up to its zero.
fn text(memory: &[u8], address: u16) -> String {
    let bytes = (0..=u16::MAX).map(|i| memory[usize::from(address.wrapping_add(i))]);
    String::from_utf8_lossy(&bytes.take_while(|b| *b != 0).collect::<Vec<u8>>()).into_owned()
}
