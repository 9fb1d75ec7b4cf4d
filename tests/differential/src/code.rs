//! Random code: blocks of instructions with operands that meet the registers, the stack, the code itself and the ends
//! of pages.

use crate::random::Random;
use crate::states::{interrupt_enables, latch, serial_control, shift_control};
use plain_clock::opcodes::{defined, Addressing, Operation, TABLE};

/// The registers that do something, the ports more than once.
pub const REGISTERS: [u8; 24] = [
    0x00, 0x00, 0x00, 0x01, 0x02, 0x03, 0x10, 0x11, 0x12, 0x14, 0x14, 0x15, 0x15, 0x16, 0x17, 0x17, 0x18, 0x19, 0x1A,
    0x1A, 0x1C, 0x1D, 0x1E, 0x1E,
];

/// What code may do.
#[derive(Clone, Copy, PartialEq, Eq, Debug)]
pub enum Style {
    /// Anything.
    Wild,
    /// Reads anything, but writes only ports, flags, serial data and page zero's memory, keeps SP and does not leave
    /// its loop: so that counters and the serial channel go on undisturbed.
    Quiet,
}

/// Writes bytes into the memory from an address on; "PC and pointers go from FFFFh to 0000h".
pub struct Writer<'a> {
    pub memory: &'a mut [u8],
    pub at: u16,
}

impl Writer<'_> {
    fn byte(&mut self, byte: u8) {
        self.memory[usize::from(self.at)] = byte;
        self.at = self.at.wrapping_add(1);
    }

    fn bytes(&mut self, bytes: &[u8]) {
        for &byte in bytes {
            self.byte(byte);
        }
    }

    fn word(&mut self, word: u16) {
        self.bytes(&word.to_le_bytes());
    }
}

/// A pointer for JMP indirect, its high byte at the address plus 1 within the page (document 02, U5); where that is
/// another page's address, mostly another byte there.
fn put_jump_pointer(random: &Random, memory: &mut [u8], address: u16, target: u16) {
    let [low, high] = target.to_le_bytes();
    let next = address.wrapping_add(1);
    if random.percent(80) {
        memory[usize::from(next)] = random.byte();
    }
    memory[usize::from(address)] = low;
    memory[usize::from(address & 0xFF00 | next & 0x00FF)] = high;
}

pub fn interesting_byte(random: &Random) -> u8 {
    match random.below(4) {
        0 => random.pick(&[0x00, 0x01, 0x7F, 0x80, 0xFF, 0x99, 0x50, 0x0F]),
        1 => random.below(10) as u8 | (random.below(10) as u8) << 4,
        _ => random.byte(),
    }
}

/// A value for a register that makes something happen soon.
fn register_value(random: &Random, register: u8) -> u8 {
    match register {
        0x10 => random.pick(&[0x00, 0xF0, random.byte()]),
        0x12 => interrupt_enables(random),
        0x14 => random.pick(&[random.below(16) as u8, random.byte(), 0x01, 0x05, 0x0C]),
        0x15 => serial_control(random),
        0x16 => random.pick(&[0x00, 0x10, 0x20, 0x30, random.byte()]),
        0x18 | 0x1C => latch(random) as u8,
        0x19 | 0x1A | 0x1D | 0x1E => random.pick(&[0, 0, 0, 0, 0, 1, random.byte()]),
        _ => random.byte(),
    }
}

fn written(operation: Operation) -> bool {
    use Operation::*;
    matches!(operation, Sta | Stx | Sty | Asl | Dec | Inc | Lsr | Rmb(_) | Rol | Ror | Smb(_))
}

fn zero_page(random: &Random, style: Style, writes: bool) -> u8 {
    if style == Style::Quiet && writes {
        return random.pick(&[0x01, 0x02, 0x03, 0x10, 0x17, 0x50, 0x51, random.between(0x40, 0x7F) as u8]);
    }
    match random.below(20) {
        0..=9 => random.pick(&REGISTERS),
        10..=11 => random.below(0x40) as u8,
        12 => 0xFF,
        _ => random.between(0x40, 0xFF) as u8,
    }
}

fn absolute(random: &Random, style: Style, writes: bool, block: u16) -> u16 {
    if style == Style::Quiet && writes {
        return u16::from(zero_page(random, style, true));
    }
    match random.below(10) {
        0..=3 => u16::from(zero_page(random, style, writes)),
        4 => 0xFF00 | random.word() & 0xFF,
        5 => block.wrapping_add(random.below(48) as u16),
        6 => random.word() | 0x00FE,
        _ => random.word(),
    }
}

/// Opcodes that leave the loop or move the stack pointer.
fn leaves(operation: Operation) -> bool {
    use Operation::*;
    matches!(operation, Brk | Jmp | Jsr | Rti | Rts | Txs)
}

/// Opcodes whose writes go where a register holds the address.
fn indexed(addressing: Addressing) -> bool {
    use Addressing::*;
    matches!(addressing, ZeroPageX | ZeroPageY | AbsoluteX | AbsoluteY | IndirectX | IndirectY)
}

fn defined_opcode(random: &Random, style: Style) -> u8 {
    loop {
        let opcode = random.byte();
        let entry = TABLE[usize::from(opcode)];
        let fits =
            style == Style::Wild || !(leaves(entry.operation) || written(entry.operation) && indexed(entry.addressing));
        if defined(opcode) && fits {
            return opcode;
        }
    }
}

/// A pointer for JMP indirect, often with its low byte at a page's end, and a target that it leads to. At 00FFh the
/// high byte is port A's, at 003Fh the low byte is a register's.
fn jump_indirect(random: &Random, writer: &mut Writer, block: u16) {
    let pointer = match random.below(14) {
        0..=4 => random.word() | 0xFF,
        5..=6 => 0xFFFF,
        7..=8 => 0x00FF,
        9 => 0x003F,
        10 => random.below(0x40) as u16,
        _ => random.word(),
    };
    if random.percent(85) {
        put_jump_pointer(random, writer.memory, pointer, block);
    }
    if pointer == 0x00FF && random.percent(70) {
        writer.bytes(&[0xA9, (block >> 8) as u8, 0x85, 0x00]);
    }
    writer.byte(0x6C);
    writer.word(pointer);
}

/// One instruction. `block` is where the block that it belongs to begins.
fn instruction(random: &Random, writer: &mut Writer, style: Style, block: u16) {
    let opcode = defined_opcode(random, style);
    let entry = TABLE[usize::from(opcode)];
    let writes = written(entry.operation);
    if entry.addressing == Addressing::Indirect {
        jump_indirect(random, writer, block);
        return;
    }
    writer.byte(opcode);
    match entry.addressing {
        Addressing::Implied | Addressing::Accumulator | Addressing::Indirect => {}
        Addressing::Immediate => writer.byte(interesting_byte(random)),
        Addressing::Relative => writer.byte(offset(random, style)),
        Addressing::ZeroPageRelative => {
            writer.byte(zero_page(random, style, false));
            writer.byte(offset(random, style));
        }
        Addressing::ZeroPage
        | Addressing::ZeroPageX
        | Addressing::ZeroPageY
        | Addressing::IndirectX
        | Addressing::IndirectY => writer.byte(zero_page(random, style, writes)),
        Addressing::Absolute | Addressing::AbsoluteX | Addressing::AbsoluteY => {
            let jump = leaves(entry.operation) && random.percent(70);
            let address = if jump { block } else { absolute(random, style, writes, block) };
            writer.word(address);
        }
    }
}

/// A branch's offset: mostly a little forward, sometimes back or far.
fn offset(random: &Random, style: Style) -> u8 {
    match random.below(10) {
        0..=6 => random.below(5) as u8,
        7..=8 if style == Style::Wild => 0u8.wrapping_sub(random.between(2, 24) as u8),
        9 if style == Style::Wild => random.byte(),
        _ => 0,
    }
}

fn store(random: &Random, writer: &mut Writer, register: u8) {
    let value = register_value(random, register);
    writer.bytes(&[0xA9, value, 0x85, register]);
}

/// Some instructions that belong together.
fn snippet(random: &Random, writer: &mut Writer, style: Style, block: u16) {
    match random.below(16) {
        0..=3 if style == Style::Wild => {
            let register = random.pick(&REGISTERS);
            store(random, writer, register);
        }
        0..=3 => {
            let register = random.pick(&[0x01, 0x02, 0x10, 0x17]);
            store(random, writer, register);
        }
        // decimal sums and differences
        4 => writer.bytes(&[0xF8, 0xA9, interesting_byte(random), 0x69, interesting_byte(random)]),
        5 => writer.bytes(&[0xF8, 0xA9, interesting_byte(random), 0xE9, interesting_byte(random)]),
        // a bit waited for: BBR or BBS to itself
        6 => writer.bytes(&[random.pick(&[0x4F, 0x5F, 0x6F, 0xEF]), random.pick(&[0x11, 0x16]), 0xFD]),
        // the stack at the registers, or at the code where it lies in page zero
        7 if style == Style::Wild => move_stack(random, writer, block),
        8 => writer.byte(random.pick(&[0x58, 0x58, 0x78])),
        9 => writer.bytes(&[0x08, 0x68]),
        10 => writer.bytes(&[0xA5, random.pick(&[0x11, 0x16, 0x17, 0x18, 0x1C])]),
        11 => jump_indirect_back(random, writer, style, block),
        // a read-modify-write instruction at a port
        12 => {
            writer.bytes(&[random.pick(&[0x06, 0x26, 0x46, 0x66, 0xC6, 0xE6, 0x07, 0x97]), random.pick(&[0, 1, 2, 3])])
        }
        13 if style == Style::Wild => writer.bytes(random.pick(&[&[0x48, 0x48, 0x08], &[0x68, 0x28, 0x68]])),
        14 if style == Style::Wild => modify_code(random, writer),
        15 if style == Style::Wild => enter_pulse_mode(random, writer),
        _ => instruction(random, writer, style, block),
    }
}

/// The stack pointer at the registers; or, where the code lies in page zero, so that JSR pushes over its own operand.
fn move_stack(random: &Random, writer: &mut Writer, block: u16) {
    if (0x40..0xF0).contains(&writer.at) && random.flag() {
        // JSR's high byte is 5 bytes behind LDX.
        let high = writer.at as u8 + 5;
        writer.bytes(&[0xA2, high + random.pick(&[0, 1]), 0x9A, 0x20]);
        writer.word(block);
    } else {
        writer.bytes(&[0xA2, random.below(0x44) as u8, 0x9A]);
    }
}

/// A store over the next instruction.
fn modify_code(random: &Random, writer: &mut Writer) {
    let opcode = random.pick(&[0xEA, 0xE8, 0x48, 0x0A, 0x02]);
    writer.bytes(&[0xA9, opcode]);
    let next = writer.at.wrapping_add(3);
    writer.byte(0x8D);
    writer.word(next);
    writer.byte(0xEA);
}

/// PA4's latch low, then mode 01 of counter A by MCR, or by the serial channel letting go of it.
fn enter_pulse_mode(random: &Random, writer: &mut Writer) {
    let hold = random.pick(&[0x00, 0x40, 0x80, 0x50]);
    writer.bytes(&[0xA9, hold, 0x85, 0x15, 0x47, 0x00, 0xA9, random.pick(&[0x01, 0x05]), 0x85, 0x14]);
    if random.flag() {
        writer.bytes(&[0xA9, random.pick(&[0x00, 0x50]), 0x85, 0x15]);
    }
}

fn jump_indirect_back(random: &Random, writer: &mut Writer, style: Style, block: u16) {
    if style == Style::Wild && random.percent(50) {
        jump_indirect(random, writer, block);
    }
}

/// A block of code that goes round, and now and then has an undefined opcode in it.
pub fn block(random: &Random, memory: &mut [u8], start: u16, style: Style, instructions: u32) {
    let mut writer = Writer { memory, at: start };
    let undefined = if random.percent(6) { random.below(instructions) } else { u32::MAX };
    for i in 0..instructions {
        if i == undefined {
            writer.byte(random.pick(&[0x02, 0x03, 0x80, 0xFB, 0x1A]));
        } else if random.percent(40) {
            snippet(random, &mut writer, style, start);
        } else {
            instruction(random, &mut writer, style, start);
        }
    }
    if random.percent(90) {
        writer.byte(0x4C);
        writer.word(start);
    }
}

/// An interrupt handler: clears flags, and mostly returns.
pub fn handler(random: &Random, memory: &mut [u8], start: u16, style: Style) {
    let mut writer = Writer { memory, at: start };
    if random.percent(60) {
        writer.bytes(&[0xA5, random.pick(&[0x17, 0x18, 0x1C])]);
    }
    if random.percent(50) {
        writer.bytes(&[random.pick(&[0x07, 0x17, 0x27, 0x37]), 0x10]);
    }
    if random.percent(40) {
        instruction(random, &mut writer, style, start);
    }
    if random.percent(30) {
        store(random, &mut writer, 0x17);
    }
    writer.byte(0x40);
}

/// A short loop that sends: waits until the data register is empty, then writes it.
pub fn sending_loop(random: &Random, memory: &mut [u8], start: u16) {
    let mut writer = Writer { memory, at: start };
    // BBR6 16h to itself, INC 50h, LDA 50h, STA 17h
    writer.bytes(&[0x6F, 0x16, 0xFD, 0xE6, 0x50, 0xA5, 0x50, 0x85, 0x17]);
    if random.percent(40) {
        writer.bytes(&[0xA9, random.pick(&[0x20, 0x30]), 0x85, 0x16]);
    }
    if random.percent(50) {
        // BBR7 16h to itself: until the transmitter has run empty
        writer.bytes(&[0x7F, 0x16, 0xFD]);
    }
    writer.byte(0x4C);
    writer.word(start);
}

/// A short loop that receives: waits for IFR6, reads the status and the data.
pub fn receiving_loop(random: &Random, memory: &mut [u8], start: u16) {
    let mut writer = Writer { memory, at: start };
    // BBR6 11h to itself, LDA 16h, STA 01h
    writer.bytes(&[0x6F, 0x11, 0xFD, 0xA5, 0x16, 0x85, 0x01]);
    // Left unread, the next character overruns.
    if random.percent(60) {
        writer.bytes(&[0xA5, 0x17, 0x85, 0x02]);
    }
    if random.percent(50) {
        writer.byte(0x4C);
        writer.word(start);
    } else {
        block(random, memory, start.wrapping_add(11), Style::Quiet, 6);
    }
}

/// Clocks that pass without an access: none, or some instructions.
fn delay(random: &Random, writer: &mut Writer) {
    if random.percent(15) {
        // LDX, DEX, BNE
        writer.bytes(&[0xA2, random.between(1, 12) as u8, 0xCA, 0xD0, 0xFD]);
    } else {
        for _ in 0..random.pick(&[0, 0, 1, 2, 4, 8]) {
            writer.byte(0xEA);
        }
    }
}

/// Bits for a receiver in shift-register mode, PA4 and PA7 being driven by port A's latches: RMB4, SMB4; RMB7, SMB7.
fn clocked_bits(random: &Random, writer: &mut Writer, bits: u32) {
    for _ in 0..bits {
        if random.percent(60) {
            writer.bytes(&[random.pick(&[0x77, 0xF7]), 0x00]);
        }
        writer.bytes(&[0x47, 0x00]);
        if random.percent(20) {
            delay(random, writer);
        }
        writer.bytes(&[0xC7, 0x00]);
    }
}

/// A loop that clocks the receiver by port A's latches, and mostly reads what it received.
pub fn clocking_loop(random: &Random, memory: &mut [u8], start: u16) {
    let mut writer = Writer { memory, at: start };
    clocked_bits(random, &mut writer, random.pick(&[1, 3, 4, 8]));
    if random.percent(50) {
        writer.bytes(&[0xA5, 0x17, 0x85, 0x02]);
    }
    writer.byte(0x4C);
    writer.word(start);
}

/// A loop that turns from the sender to the receiver in shift-register mode while a byte is being sent, so that PA4
/// goes back from clock to latch, mostly with a rise; the other bits of a byte follow by port A or from outside.
pub fn turning_loop(random: &Random, memory: &mut [u8], start: u16) {
    let mut writer = Writer { memory, at: start };
    let sender = random.pick(&[0xA0, 0xB0, 0xE0, 0xF0]) | random.below(16) as u8;
    writer.bytes(&[0xA9, sender, 0x85, 0x15, 0xA9, random.byte(), 0x85, 0x17]);
    delay(random, &mut writer);
    let receiver = random.pick(&[0x50, 0x50, 0xD0]) | random.below(16) as u8;
    writer.bytes(&[0xA9, receiver, 0x85, 0x15]);
    if random.percent(60) {
        clocked_bits(random, &mut writer, random.pick(&[6, 7, 8]));
    } else {
        // LDX, DEX, BNE
        writer.bytes(&[0xA2, random.between(1, 20) as u8, 0xCA, 0xD0, 0xFD]);
    }
    if random.percent(40) {
        writer.bytes(&[0xA5, 0x17]);
    }
    writer.byte(0x4C);
    writer.word(start);
}

/// A loop that writes SCCR again and again, with either half in either mode, on and off, or the same value once more.
pub fn switching_loop(random: &Random, memory: &mut [u8], start: u16) {
    let mut writer = Writer { memory, at: start };
    let mut control = shift_control(random);
    for _ in 0..random.between(2, 6) {
        let form = random.below(16) as u8;
        control = match random.below(20) {
            0..=4 => control,
            5..=6 => control ^ random.pick(&[0x10, 0x20, 0x30, 0x40, 0x80]),
            7..=8 => random.pick(&[0x00, 0x10, 0x20, 0x40, 0x80, 0xC0]) | form,
            9 => random.byte(),
            _ => shift_control(random),
        };
        writer.bytes(&[0xA9, control, 0x85, 0x15]);
        if random.percent(60) {
            store(random, &mut writer, 0x17);
        }
        delay(random, &mut writer);
        match random.below(10) {
            0..=1 => clocked_bits(random, &mut writer, random.pick(&[1, 2, 8])),
            2 => store(random, &mut writer, 0x00),
            3 => store(random, &mut writer, 0x14),
            4 => writer.bytes(&[0xA5, random.pick(&[0x00, 0x16, 0x17])]),
            5 => writer.bytes(&[0xA9, 0x00, 0x85, 0x1A]),
            6 => writer.bytes(&[random.pick(&[0xE6, 0xC6, 0x06, 0x47, 0xC7]), 0x00]),
            _ => {}
        }
        delay(random, &mut writer);
    }
    writer.byte(0x4C);
    writer.word(start);
}

/// Stores for the shift-register mode with a small latch of counter A, in any order; gives the address behind them.
/// Counter A is mostly in mode 01 where it may clock the receiver.
pub fn shift_setting(random: &Random, memory: &mut [u8], start: u16) -> u16 {
    let mut writer = Writer { memory, at: start };
    let control = shift_control(random);
    let mode = if control & 0xA0 == 0 { random.pick(&[0x01, 0x01, 0x02, 0x00]) } else { random.below(4) as u8 };
    let stores = [
        [0xA9, random.pick(&[0, 1, 2, 3]), 0x85, 0x18, 0xA9, 0x00, 0x85, 0x1A],
        [0xA9, control, 0x85, 0x15, 0xA9, random.byte(), 0x85, 0x17],
        [0xA9, mode, 0x85, 0x14, 0xA9, random.pick(&[0x00, 0x40, 0x80]), 0x85, 0x12],
    ];
    let first = random.below(3) as usize;
    for i in 0..3 {
        writer.bytes(&stores[(first + i) % 3]);
    }
    writer.at
}
