//! 01, One clock, 4, and 01, Instructions.

use crate::accesses::{AccessKind, Accesses};
use crate::opcodes::{defined, Addressing, Operation, TABLE};
use crate::pins::{level, PIN_RES};
use crate::registers::{
    interrupt_flags, read_register, read_register_to_modify, register_value, write_register, REGISTERS_END,
};
use crate::state::{State, Waiting, FLAG_5, FLAG_B, FLAG_C, FLAG_D, FLAG_I, FLAG_N, FLAG_V, FLAG_Z};

const VECTOR_NMI: u16 = 0xFFFA;
const VECTOR_RESET: u16 = 0xFFFC;
const VECTOR_IRQ: u16 = 0xFFFE;
const ENTRY_LENGTH: u8 = 7;

/// What the CPU starts on a clock.
#[derive(Clone, Copy, PartialEq, Eq, Debug)]
pub enum Start {
    Reset,
    Nmi,
    Irq,
    Instruction,
}

/// 01, One clock, 4: "CPU, if RES is high. With wait above 0: wait minus 1. Otherwise start: reset, then NMI, then IRQ
/// (I clear, IFR AND IER nonzero) ...; else one whole instruction." Nothing is started under RES low or with wait above
/// 0.
pub fn start_on(state: &State) -> Option<Start> {
    if !level(state.last, PIN_RES) || state.wait > 0 {
        None
    } else if state.reset_due {
        Some(Start::Reset)
    } else if state.nmi_due {
        Some(Start::Nmi)
    } else if state.p & FLAG_I == 0 && interrupt_flags(state) & state.ier != 0 {
        Some(Start::Irq)
    } else {
        Some(Start::Instruction)
    }
}

/// Document 02, U6: a store or a read-modify-write puts "its byte on its last clock, after counters and serial". The
/// byte that this clock's step 4 puts; `state` is that after steps 1 to 3, so that one that RES low has dropped is not.
pub fn put_on(state: &State) -> Option<Waiting> {
    if level(state.last, PIN_RES) && state.wait == 1 {
        state.waiting
    } else {
        None
    }
}

/// The byte at an address without the read's effects.
fn look(state: &State, memory: &[u8], address: u16) -> u8 {
    if address < REGISTERS_END {
        register_value(state, address as u8)
    } else {
        memory[usize::from(address)]
    }
}

/// 01, What is handed back, 6: "the next clock would start an undefined opcode", judged after steps 1 to 3.
pub fn starts_undefined(state: &State, memory: &[u8]) -> bool {
    opcode_started(state, memory).is_some_and(|opcode| !defined(opcode))
}

/// Whether the byte at PC is an undefined opcode, be it started or not.
pub fn undefined_at_pc(state: &State, memory: &[u8]) -> bool {
    !defined(look(state, memory, state.pc))
}

/// The opcode that the clock starts, if it starts an instruction; `state` is that after steps 1 to 3.
pub fn opcode_started(state: &State, memory: &[u8]) -> Option<u8> {
    (start_on(state) == Some(Start::Instruction)).then(|| look(state, memory, state.pc))
}

/// 01, One clock, 4. The opcode, if one is started, is defined. The accesses are put into `accesses`.
pub fn step_cpu(state: &mut State, memory: &mut [u8], accesses: &mut Accesses) {
    if !level(state.last, PIN_RES) {
        return;
    }
    let (start, put) = (start_on(state), put_on(state));
    let mut bus = Bus { state, memory, accesses };
    match start {
        Some(start) => start_with(&mut bus, start),
        None => go_on_waiting(&mut bus, put),
    }
}

/// "With wait above 0: wait minus 1"; on the last clock of a store its byte is put, and none waits from then on.
fn go_on_waiting(bus: &mut Bus, put: Option<Waiting>) {
    bus.state.wait -= 1;
    if let Some(byte) = put {
        bus.state.waiting = None;
        bus.write(byte.address, byte.value);
    }
}

fn start_with(bus: &mut Bus, start: Start) {
    let length = match start {
        Start::Reset => enter_reset(bus),
        Start::Nmi => enter_nmi(bus),
        Start::Irq => enter_irq(bus),
        Start::Instruction => instruction(bus),
    };
    // "Wait becomes the length minus 1."
    bus.state.wait = length - 1;
}

/// State and memory during step 4: "All its reads and writes happen now, each once, idle bus accesses none"; but a
/// store's byte waits.
struct Bus<'a> {
    state: &'a mut State,
    memory: &'a mut [u8],
    accesses: &'a mut Accesses,
}

impl Bus<'_> {
    fn read(&mut self, address: u16) -> u8 {
        let value = if address < REGISTERS_END {
            read_register(self.state, address as u8)
        } else {
            self.memory[usize::from(address)]
        };
        self.accesses.add(AccessKind::Read, address, value, 0);
        value
    }

    fn read_to_modify(&mut self, address: u16) -> u8 {
        let value = if address < REGISTERS_END {
            read_register_to_modify(self.state, address as u8)
        } else {
            self.memory[usize::from(address)]
        };
        self.accesses.add(AccessKind::ReadToModify, address, value, 0);
        value
    }

    fn write(&mut self, address: u16, value: u8) {
        self.accesses.add(AccessKind::Write, address, value, self.memory[usize::from(address)]);
        if address < REGISTERS_END {
            write_register(self.state, address as u8, value);
        } else {
            self.memory[usize::from(address)] = value;
        }
    }

    /// The byte of a store or a read-modify-write, which waits for the last clock (document 02, U6). "Stack pushes
    /// remain on the first clock."
    fn store(&mut self, address: u16, value: u8) {
        self.state.waiting = Some(Waiting { address, value });
    }

    /// The byte at PC; "PC and pointers go from FFFFh to 0000h".
    fn fetch(&mut self) -> u8 {
        let value = self.read(self.state.pc);
        self.state.pc = self.state.pc.wrapping_add(1);
        value
    }

    fn fetch_word(&mut self) -> u16 {
        let low = self.fetch();
        let high = self.fetch();
        u16::from_le_bytes([low, high])
    }

    /// Low byte first, then the high byte at the address plus 1 in 16 bits.
    fn read_word(&mut self, address: u16) -> u16 {
        let low = self.read(address);
        let high = self.read(address.wrapping_add(1));
        u16::from_le_bytes([low, high])
    }

    /// Low byte first, then the high byte at the address plus 1 within its page.
    fn read_word_in_page(&mut self, address: u16) -> u16 {
        let second = address / 256 * 256 + (address % 256 + 1) % 256;
        let low = self.read(address);
        let high = self.read(second);
        u16::from_le_bytes([low, high])
    }

    /// A pointer in page zero: "zero-page indexing and SP wrap within 8 bits".
    fn read_zero_page_word(&mut self, address: u8) -> u16 {
        let low = self.read(u16::from(address));
        let high = self.read(u16::from(address.wrapping_add(1)));
        u16::from_le_bytes([low, high])
    }

    /// 001, 3.1.3: written at the stack pointer, then the pointer goes down; the stack is on page zero.
    fn push(&mut self, value: u8) {
        self.write(u16::from(self.state.sp), value);
        self.state.sp = self.state.sp.wrapping_sub(1);
    }

    /// 001, 3.1.3: the pointer goes up, then the byte there is read.
    fn pull(&mut self) -> u8 {
        self.state.sp = self.state.sp.wrapping_add(1);
        self.read(u16::from(self.state.sp))
    }

    fn push_pc(&mut self, pc: u16) {
        let [low, high] = pc.to_le_bytes();
        self.push(high);
        self.push(low);
    }

    fn pull_pc(&mut self) -> u16 {
        let low = self.pull();
        let high = self.pull();
        u16::from_le_bytes([low, high])
    }

    fn flag(&self, flag: u8) -> bool {
        self.state.p & flag != 0
    }

    fn set_flag(&mut self, flag: u8, value: bool) {
        if value {
            self.state.p |= flag;
        } else {
            self.state.p &= !flag;
        }
    }

    fn set_nz(&mut self, value: u8) {
        self.set_flag(FLAG_N, value & 0x80 != 0);
        self.set_flag(FLAG_Z, value == 0);
    }

    fn set_a(&mut self, value: u8) {
        self.state.a = value;
        self.set_nz(value);
    }

    fn set_x(&mut self, value: u8) {
        self.state.x = value;
        self.set_nz(value);
    }

    fn set_y(&mut self, value: u8) {
        self.state.y = value;
        self.set_nz(value);
    }

    /// "a pull drops both" (bits 4 and 5 of P).
    fn set_p_from_stack(&mut self, value: u8) {
        self.state.p = value & !(FLAG_B | FLAG_5);
    }
}

/// "An entry clears its due mark and sets I ...; reset pushes nothing and keeps SP."
fn enter_reset(bus: &mut Bus) -> u8 {
    bus.state.reset_due = false;
    bus.set_flag(FLAG_I, true);
    bus.state.pc = bus.read_word(VECTOR_RESET);
    ENTRY_LENGTH
}

fn enter_nmi(bus: &mut Bus) -> u8 {
    bus.state.nmi_due = false;
    push_and_vector(bus, VECTOR_NMI)
}

fn enter_irq(bus: &mut Bus) -> u8 {
    push_and_vector(bus, VECTOR_IRQ)
}

/// "NMI and IRQ push PC high, PC low, P"; "a push sets bit 5 in the byte".
fn push_and_vector(bus: &mut Bus, vector: u16) -> u8 {
    bus.push_pc(bus.state.pc);
    bus.push(bus.state.p | FLAG_5);
    bus.set_flag(FLAG_I, true);
    bus.state.pc = bus.read_word(vector);
    ENTRY_LENGTH
}

/// "one whole instruction"; gives its length in clocks.
fn instruction(bus: &mut Bus) -> u8 {
    let opcode = bus.fetch();
    let entry = TABLE[usize::from(opcode)];
    let extra = match entry.operation {
        Operation::Bbr(bit) => branch_on_bit(bus, bit, false),
        Operation::Bbs(bit) => branch_on_bit(bus, bit, true),
        Operation::Brk => brk(bus),
        Operation::Jsr => jsr(bus),
        Operation::Jmp => jmp(bus, entry.addressing),
        operation => match entry.addressing {
            Addressing::Implied => implied(bus, operation),
            Addressing::Accumulator => on_accumulator(bus, operation),
            Addressing::Relative => branch_on_flag(bus, operation),
            addressing => on_memory(bus, operation, addressing, entry.page_clock),
        },
    };
    entry.length + extra
}

/// The operand's address, and whether indexing crossed a page. Operand bytes are read in order.
fn operand_address(bus: &mut Bus, addressing: Addressing) -> (u16, bool) {
    match addressing {
        Addressing::Immediate => {
            let address = bus.state.pc;
            bus.state.pc = address.wrapping_add(1);
            (address, false)
        }
        Addressing::ZeroPage => (u16::from(bus.fetch()), false),
        Addressing::ZeroPageX => (u16::from(bus.fetch().wrapping_add(bus.state.x)), false),
        Addressing::ZeroPageY => (u16::from(bus.fetch().wrapping_add(bus.state.y)), false),
        Addressing::Absolute => (bus.fetch_word(), false),
        Addressing::AbsoluteX => {
            let base = bus.fetch_word();
            indexed(base, bus.state.x)
        }
        Addressing::AbsoluteY => {
            let base = bus.fetch_word();
            indexed(base, bus.state.y)
        }
        Addressing::IndirectX => {
            let pointer = bus.fetch().wrapping_add(bus.state.x);
            (bus.read_zero_page_word(pointer), false)
        }
        Addressing::IndirectY => {
            let pointer = bus.fetch();
            let base = bus.read_zero_page_word(pointer);
            indexed(base, bus.state.y)
        }
        _ => unreachable!("no operand in memory"),
    }
}

fn indexed(base: u16, index: u8) -> (u16, bool) {
    let address = base.wrapping_add(u16::from(index));
    (address, !same_page(base, address))
}

fn same_page(one: u16, other: u16) -> bool {
    one >> 8 == other >> 8
}

/// Operations with an operand in memory. Gives the extra clocks (001, A.3: "Add 1 to N if page boundary is crossed").
fn on_memory(bus: &mut Bus, operation: Operation, addressing: Addressing, page_clock: bool) -> u8 {
    let (address, crossed) = operand_address(bus, addressing);
    match operation {
        Operation::Sta => bus.store(address, bus.state.a),
        Operation::Stx => bus.store(address, bus.state.x),
        Operation::Sty => bus.store(address, bus.state.y),
        Operation::Asl
        | Operation::Dec
        | Operation::Inc
        | Operation::Lsr
        | Operation::Rmb(_)
        | Operation::Rol
        | Operation::Ror
        | Operation::Smb(_) => {
            let before = bus.read_to_modify(address);
            let after = modified(bus, operation, before);
            bus.store(address, after);
        }
        _ => {
            let value = bus.read(address);
            with_value(bus, operation, value);
        }
    }
    u8::from(page_clock && crossed)
}

/// Operations that read a value and write registers of the CPU only.
fn with_value(bus: &mut Bus, operation: Operation, value: u8) {
    match operation {
        Operation::Adc => add(bus, value),
        Operation::And => bus.set_a(bus.state.a & value),
        Operation::Bit => bit_test(bus, value),
        Operation::Cmp => compare(bus, bus.state.a, value),
        Operation::Cpx => compare(bus, bus.state.x, value),
        Operation::Cpy => compare(bus, bus.state.y, value),
        Operation::Eor => bus.set_a(bus.state.a ^ value),
        Operation::Lda => bus.set_a(value),
        Operation::Ldx => bus.set_x(value),
        Operation::Ldy => bus.set_y(value),
        Operation::Ora => bus.set_a(bus.state.a | value),
        Operation::Sbc => subtract(bus, value),
        _ => unreachable!("not an operation with a value"),
    }
}

/// 001, 3.8.6: BIT copies bit 6 to V and bit 7 to N; Z of A AND M.
fn bit_test(bus: &mut Bus, value: u8) {
    bus.set_flag(FLAG_Z, bus.state.a & value == 0);
    bus.set_flag(FLAG_V, value & 0x40 != 0);
    bus.set_flag(FLAG_N, value & 0x80 != 0);
}

fn compare(bus: &mut Bus, register: u8, value: u8) {
    bus.set_flag(FLAG_C, register >= value);
    bus.set_nz(register.wrapping_sub(value));
}

/// The byte that a read-modify-write operation writes, with its flags. RMB and SMB touch no flag (001, 3.2).
fn modified(bus: &mut Bus, operation: Operation, value: u8) -> u8 {
    match operation {
        Operation::Asl => shift_left(bus, value, false),
        Operation::Rol => shift_left(bus, value, bus.flag(FLAG_C)),
        Operation::Lsr => shift_right(bus, value, false),
        Operation::Ror => shift_right(bus, value, bus.flag(FLAG_C)),
        Operation::Inc => stepped(bus, value.wrapping_add(1)),
        Operation::Dec => stepped(bus, value.wrapping_sub(1)),
        Operation::Rmb(bit) => value & !(1 << bit),
        Operation::Smb(bit) => value | 1 << bit,
        _ => unreachable!("not a read-modify-write operation"),
    }
}

fn stepped(bus: &mut Bus, result: u8) -> u8 {
    bus.set_nz(result);
    result
}

fn shift_left(bus: &mut Bus, value: u8, low: bool) -> u8 {
    let result = value << 1 | u8::from(low);
    bus.set_flag(FLAG_C, value & 0x80 != 0);
    bus.set_nz(result);
    result
}

fn shift_right(bus: &mut Bus, value: u8, high: bool) -> u8 {
    let result = value >> 1 | u8::from(high) << 7;
    bus.set_flag(FLAG_C, value & 0x01 != 0);
    bus.set_nz(result);
    result
}

fn on_accumulator(bus: &mut Bus, operation: Operation) -> u8 {
    bus.state.a = modified(bus, operation, bus.state.a);
    0
}

fn add(bus: &mut Bus, value: u8) {
    if bus.flag(FLAG_D) {
        add_decimal(bus, value);
    } else {
        add_binary(bus, value);
    }
}

/// V: the operands' signs are alike and the result's sign is not.
fn overflows(one: u8, other: u8, result: u8) -> bool {
    (one ^ result) & (other ^ result) & 0x80 != 0
}

fn add_binary(bus: &mut Bus, value: u8) {
    let a = bus.state.a;
    let sum = u16::from(a) + u16::from(value) + u16::from(bus.flag(FLAG_C));
    let result = sum as u8;
    bus.set_flag(FLAG_C, sum > 0xFF);
    bus.set_flag(FLAG_V, overflows(a, value, result));
    bus.set_a(result);
}

/// 01, Instructions: "Decimal ADC: low digits plus C; from 10 up, that sum becomes ((it + 6) mod 16) + 16. Add the high
/// digits; N, V from this; from A0h up add 60h; C if 100h or more. Z is binary."
fn add_decimal(bus: &mut Bus, value: u8) {
    let a = bus.state.a;
    let carry = u16::from(bus.flag(FLAG_C));
    let mut low = u16::from(a & 0x0F) + u16::from(value & 0x0F) + carry;
    if low >= 10 {
        low = (low + 6) % 16 + 16;
    }
    let mut sum = low + u16::from(a & 0xF0) + u16::from(value & 0xF0);
    bus.set_flag(FLAG_N, sum & 0x80 != 0);
    bus.set_flag(FLAG_V, overflows(a, value, sum as u8));
    if sum >= 0xA0 {
        sum += 0x60;
    }
    let binary = (u16::from(a) + u16::from(value) + carry) as u8;
    bus.set_flag(FLAG_Z, binary == 0);
    bus.set_flag(FLAG_C, sum >= 0x100);
    bus.state.a = sum as u8;
}

/// "Decimal SBC: ... Flags are binary."
fn subtract(bus: &mut Bus, value: u8) {
    let decimal = decimal_difference(bus, value);
    add_binary(bus, !value);
    if bus.flag(FLAG_D) {
        bus.state.a = decimal;
    }
}

/// 01, Instructions: "Decimal SBC: low difference less borrow; if negative, ((it - 6) mod 16) - 16; add the high
/// difference; if negative subtract 60h."
fn decimal_difference(bus: &Bus, value: u8) -> u8 {
    let a = bus.state.a;
    let borrow = i16::from(!bus.flag(FLAG_C));
    let mut low = i16::from(a & 0x0F) - i16::from(value & 0x0F) - borrow;
    if low < 0 {
        low = (low - 6).rem_euclid(16) - 16;
    }
    let mut difference = low + i16::from(a & 0xF0) - i16::from(value & 0xF0);
    if difference < 0 {
        difference -= 0x60;
    }
    difference.rem_euclid(256) as u8
}

/// Operations without an operand.
fn implied(bus: &mut Bus, operation: Operation) -> u8 {
    match operation {
        Operation::Clc => bus.set_flag(FLAG_C, false),
        Operation::Cld => bus.set_flag(FLAG_D, false),
        Operation::Cli => bus.set_flag(FLAG_I, false),
        Operation::Clv => bus.set_flag(FLAG_V, false),
        Operation::Sec => bus.set_flag(FLAG_C, true),
        Operation::Sed => bus.set_flag(FLAG_D, true),
        Operation::Sei => bus.set_flag(FLAG_I, true),
        Operation::Dex => bus.set_x(bus.state.x.wrapping_sub(1)),
        Operation::Dey => bus.set_y(bus.state.y.wrapping_sub(1)),
        Operation::Inx => bus.set_x(bus.state.x.wrapping_add(1)),
        Operation::Iny => bus.set_y(bus.state.y.wrapping_add(1)),
        Operation::Nop => {}
        Operation::Tax => bus.set_x(bus.state.a),
        Operation::Tay => bus.set_y(bus.state.a),
        Operation::Tsx => bus.set_x(bus.state.sp),
        Operation::Txa => bus.set_a(bus.state.x),
        Operation::Txs => bus.state.sp = bus.state.x,
        Operation::Tya => bus.set_a(bus.state.y),
        _ => on_stack(bus, operation),
    }
    0
}

/// PHA, PHP, PLA, PLP, RTI, RTS.
fn on_stack(bus: &mut Bus, operation: Operation) {
    match operation {
        Operation::Pha => bus.push(bus.state.a),
        // "PHP and BRK bit 4 too"
        Operation::Php => bus.push(bus.state.p | FLAG_B | FLAG_5),
        Operation::Pla => {
            let value = bus.pull();
            bus.set_a(value);
        }
        Operation::Plp => {
            let value = bus.pull();
            bus.set_p_from_stack(value);
        }
        Operation::Rti => {
            let value = bus.pull();
            bus.set_p_from_stack(value);
            bus.state.pc = bus.pull_pc();
        }
        Operation::Rts => bus.state.pc = bus.pull_pc().wrapping_add(1),
        _ => unreachable!("not an operation without operand"),
    }
}

/// BRK does not read its second byte but pushes PC + 2 (DECISIONS). PC stands behind the opcode here.
fn brk(bus: &mut Bus) -> u8 {
    bus.push_pc(bus.state.pc.wrapping_add(1));
    bus.push(bus.state.p | FLAG_B | FLAG_5);
    bus.set_flag(FLAG_I, true);
    bus.state.pc = bus.read_word(VECTOR_IRQ);
    0
}

/// JSR reads its low byte, pushes the address of its own last byte, then reads the high byte (DECISIONS).
fn jsr(bus: &mut Bus) -> u8 {
    let low = bus.fetch();
    bus.push_pc(bus.state.pc);
    let high = bus.fetch();
    bus.state.pc = u16::from_le_bytes([low, high]);
    0
}

/// Document 02, U5: of JMP indirect "the high byte comes from the start of that same page" where the pointer is at a
/// page's end; "other pointers being unaffected" (01: "from the pointer plus 1").
fn jmp(bus: &mut Bus, addressing: Addressing) -> u8 {
    let operand = bus.fetch_word();
    bus.state.pc = match addressing {
        Addressing::Indirect => bus.read_word_in_page(operand),
        _ => operand,
    };
    0
}

fn branch_on_flag(bus: &mut Bus, operation: Operation) -> u8 {
    let offset = bus.fetch();
    let taken = match operation {
        Operation::Bcc => !bus.flag(FLAG_C),
        Operation::Bcs => bus.flag(FLAG_C),
        Operation::Beq => bus.flag(FLAG_Z),
        Operation::Bmi => bus.flag(FLAG_N),
        Operation::Bne => !bus.flag(FLAG_Z),
        Operation::Bpl => !bus.flag(FLAG_N),
        Operation::Bvc => !bus.flag(FLAG_V),
        Operation::Bvs => bus.flag(FLAG_V),
        _ => unreachable!("not a branch"),
    };
    branch(bus, offset, taken)
}

/// BBR and BBS: zero-page address, tested byte, offset (DECISIONS); a plain read, so a port gives levels.
fn branch_on_bit(bus: &mut Bus, bit: u8, set: bool) -> u8 {
    let address = bus.fetch();
    let value = bus.read(u16::from(address));
    let offset = bus.fetch();
    branch(bus, offset, (value >> bit & 1 == 1) == set)
}

/// 001, A.3: "Add 1 to N if branch occurs to same page; add 2 to N if branch occurs to different page."
/// PC stands at the next instruction here.
fn branch(bus: &mut Bus, offset: u8, taken: bool) -> u8 {
    if !taken {
        return 0;
    }
    let next = bus.state.pc;
    let target = next.wrapping_add(i16::from(offset as i8) as u16);
    bus.state.pc = target;
    if same_page(next, target) {
        1
    } else {
        2
    }
}
