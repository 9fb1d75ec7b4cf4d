//! 01, Instructions: "All 256 stand in a constant table."

/// Operations of the 6502 and the four bit operations (with their bit number).
#[derive(Clone, Copy, PartialEq, Eq, Debug)]
pub enum Operation {
    Undefined,
    Adc,
    And,
    Asl,
    Bbr(u8),
    Bbs(u8),
    Bcc,
    Bcs,
    Beq,
    Bit,
    Bmi,
    Bne,
    Bpl,
    Brk,
    Bvc,
    Bvs,
    Clc,
    Cld,
    Cli,
    Clv,
    Cmp,
    Cpx,
    Cpy,
    Dec,
    Dex,
    Dey,
    Eor,
    Inc,
    Inx,
    Iny,
    Jmp,
    Jsr,
    Lda,
    Ldx,
    Ldy,
    Lsr,
    Nop,
    Ora,
    Pha,
    Php,
    Pla,
    Plp,
    Rmb(u8),
    Rol,
    Ror,
    Rti,
    Rts,
    Sbc,
    Sec,
    Sed,
    Sei,
    Smb(u8),
    Sta,
    Stx,
    Sty,
    Tax,
    Tay,
    Tsx,
    Txa,
    Txs,
    Tya,
}

/// Addressing modes.
#[derive(Clone, Copy, PartialEq, Eq, Debug)]
pub enum Addressing {
    Implied,
    Accumulator,
    Immediate,
    ZeroPage,
    ZeroPageX,
    ZeroPageY,
    Absolute,
    AbsoluteX,
    AbsoluteY,
    IndirectX,
    IndirectY,
    Indirect,
    Relative,
    /// BBR and BBS: a zero-page address, then an offset.
    ZeroPageRelative,
}

/// One entry: operation, addressing mode, length in clocks, and whether a crossed page adds a clock (001, A.3, "*").
#[derive(Clone, Copy, PartialEq, Eq, Debug)]
pub struct Entry {
    pub operation: Operation,
    pub addressing: Addressing,
    pub length: u8,
    pub page_clock: bool,
}

const fn entry(operation: Operation, addressing: Addressing, length: u8) -> Entry {
    Entry { operation, addressing, length, page_clock: false }
}

const fn entry_star(operation: Operation, addressing: Addressing, length: u8) -> Entry {
    Entry { operation, addressing, length, page_clock: true }
}

/// 001, A.3, Instruction Code Matrix; rows D and F by the 6502's table, BBS at 8Fh and on.
const fn describe(opcode: u8) -> Entry {
    use Addressing::*;
    use Operation::*;
    match opcode {
        0x00 => entry(Brk, Implied, 7),
        0x01 => entry(Ora, IndirectX, 6),
        0x05 => entry(Ora, ZeroPage, 3),
        0x06 => entry(Asl, ZeroPage, 5),
        0x08 => entry(Php, Implied, 3),
        0x09 => entry(Ora, Immediate, 2),
        0x0A => entry(Asl, Accumulator, 2),
        0x0D => entry(Ora, Absolute, 4),
        0x0E => entry(Asl, Absolute, 6),

        0x10 => entry(Bpl, Relative, 2),
        0x11 => entry_star(Ora, IndirectY, 5),
        0x15 => entry(Ora, ZeroPageX, 4),
        0x16 => entry(Asl, ZeroPageX, 6),
        0x18 => entry(Clc, Implied, 2),
        0x19 => entry_star(Ora, AbsoluteY, 4),
        0x1D => entry_star(Ora, AbsoluteX, 4),
        0x1E => entry(Asl, AbsoluteX, 7),

        0x20 => entry(Jsr, Absolute, 6),
        0x21 => entry(And, IndirectX, 6),
        0x24 => entry(Bit, ZeroPage, 3),
        0x25 => entry(And, ZeroPage, 3),
        0x26 => entry(Rol, ZeroPage, 5),
        0x28 => entry(Plp, Implied, 4),
        0x29 => entry(And, Immediate, 2),
        0x2A => entry(Rol, Accumulator, 2),
        0x2C => entry(Bit, Absolute, 4),
        0x2D => entry(And, Absolute, 4),
        0x2E => entry(Rol, Absolute, 6),

        0x30 => entry(Bmi, Relative, 2),
        0x31 => entry_star(And, IndirectY, 5),
        0x35 => entry(And, ZeroPageX, 4),
        0x36 => entry(Rol, ZeroPageX, 6),
        0x38 => entry(Sec, Implied, 2),
        0x39 => entry_star(And, AbsoluteY, 4),
        0x3D => entry_star(And, AbsoluteX, 4),
        0x3E => entry(Rol, AbsoluteX, 7),

        0x40 => entry(Rti, Implied, 6),
        0x41 => entry(Eor, IndirectX, 6),
        0x45 => entry(Eor, ZeroPage, 3),
        0x46 => entry(Lsr, ZeroPage, 5),
        0x48 => entry(Pha, Implied, 3),
        0x49 => entry(Eor, Immediate, 2),
        0x4A => entry(Lsr, Accumulator, 2),
        0x4C => entry(Jmp, Absolute, 3),
        0x4D => entry(Eor, Absolute, 4),
        0x4E => entry(Lsr, Absolute, 6),

        0x50 => entry(Bvc, Relative, 2),
        0x51 => entry_star(Eor, IndirectY, 5),
        0x55 => entry(Eor, ZeroPageX, 4),
        0x56 => entry(Lsr, ZeroPageX, 6),
        0x58 => entry(Cli, Implied, 2),
        0x59 => entry_star(Eor, AbsoluteY, 4),
        0x5D => entry_star(Eor, AbsoluteX, 4),
        0x5E => entry(Lsr, AbsoluteX, 7),

        0x60 => entry(Rts, Implied, 6),
        0x61 => entry(Adc, IndirectX, 6),
        0x65 => entry(Adc, ZeroPage, 3),
        0x66 => entry(Ror, ZeroPage, 5),
        0x68 => entry(Pla, Implied, 4),
        0x69 => entry(Adc, Immediate, 2),
        0x6A => entry(Ror, Accumulator, 2),
        0x6C => entry(Jmp, Indirect, 5),
        0x6D => entry(Adc, Absolute, 4),
        0x6E => entry(Ror, Absolute, 6),

        0x70 => entry(Bvs, Relative, 2),
        0x71 => entry_star(Adc, IndirectY, 5),
        0x75 => entry(Adc, ZeroPageX, 4),
        0x76 => entry(Ror, ZeroPageX, 6),
        0x78 => entry(Sei, Implied, 2),
        0x79 => entry_star(Adc, AbsoluteY, 4),
        0x7D => entry_star(Adc, AbsoluteX, 4),
        0x7E => entry(Ror, AbsoluteX, 7),

        0x81 => entry(Sta, IndirectX, 6),
        0x84 => entry(Sty, ZeroPage, 3),
        0x85 => entry(Sta, ZeroPage, 3),
        0x86 => entry(Stx, ZeroPage, 3),
        0x88 => entry(Dey, Implied, 2),
        0x8A => entry(Txa, Implied, 2),
        0x8C => entry(Sty, Absolute, 4),
        0x8D => entry(Sta, Absolute, 4),
        0x8E => entry(Stx, Absolute, 4),

        0x90 => entry(Bcc, Relative, 2),
        0x91 => entry(Sta, IndirectY, 6),
        0x94 => entry(Sty, ZeroPageX, 4),
        0x95 => entry(Sta, ZeroPageX, 4),
        0x96 => entry(Stx, ZeroPageY, 4),
        0x98 => entry(Tya, Implied, 2),
        0x99 => entry(Sta, AbsoluteY, 5),
        0x9A => entry(Txs, Implied, 2),
        0x9D => entry(Sta, AbsoluteX, 5),

        0xA0 => entry(Ldy, Immediate, 2),
        0xA1 => entry(Lda, IndirectX, 6),
        0xA2 => entry(Ldx, Immediate, 2),
        0xA4 => entry(Ldy, ZeroPage, 3),
        0xA5 => entry(Lda, ZeroPage, 3),
        0xA6 => entry(Ldx, ZeroPage, 3),
        0xA8 => entry(Tay, Implied, 2),
        0xA9 => entry(Lda, Immediate, 2),
        0xAA => entry(Tax, Implied, 2),
        0xAC => entry(Ldy, Absolute, 4),
        0xAD => entry(Lda, Absolute, 4),
        0xAE => entry(Ldx, Absolute, 4),

        0xB0 => entry(Bcs, Relative, 2),
        0xB1 => entry_star(Lda, IndirectY, 5),
        0xB4 => entry(Ldy, ZeroPageX, 4),
        0xB5 => entry(Lda, ZeroPageX, 4),
        0xB6 => entry(Ldx, ZeroPageY, 4),
        0xB8 => entry(Clv, Implied, 2),
        0xB9 => entry_star(Lda, AbsoluteY, 4),
        0xBA => entry(Tsx, Implied, 2),
        0xBC => entry_star(Ldy, AbsoluteX, 4),
        0xBD => entry_star(Lda, AbsoluteX, 4),
        0xBE => entry_star(Ldx, AbsoluteY, 4),

        0xC0 => entry(Cpy, Immediate, 2),
        0xC1 => entry(Cmp, IndirectX, 6),
        0xC4 => entry(Cpy, ZeroPage, 3),
        0xC5 => entry(Cmp, ZeroPage, 3),
        0xC6 => entry(Dec, ZeroPage, 5),
        0xC8 => entry(Iny, Implied, 2),
        0xC9 => entry(Cmp, Immediate, 2),
        0xCA => entry(Dex, Implied, 2),
        0xCC => entry(Cpy, Absolute, 4),
        0xCD => entry(Cmp, Absolute, 4),
        0xCE => entry(Dec, Absolute, 6),

        0xD0 => entry(Bne, Relative, 2),
        0xD1 => entry_star(Cmp, IndirectY, 5),
        0xD5 => entry(Cmp, ZeroPageX, 4),
        0xD6 => entry(Dec, ZeroPageX, 6),
        0xD8 => entry(Cld, Implied, 2),
        0xD9 => entry_star(Cmp, AbsoluteY, 4),
        0xDD => entry_star(Cmp, AbsoluteX, 4),
        0xDE => entry(Dec, AbsoluteX, 7),

        0xE0 => entry(Cpx, Immediate, 2),
        0xE1 => entry(Sbc, IndirectX, 6),
        0xE4 => entry(Cpx, ZeroPage, 3),
        0xE5 => entry(Sbc, ZeroPage, 3),
        0xE6 => entry(Inc, ZeroPage, 5),
        0xE8 => entry(Inx, Implied, 2),
        0xE9 => entry(Sbc, Immediate, 2),
        0xEA => entry(Nop, Implied, 2),
        0xEC => entry(Cpx, Absolute, 4),
        0xED => entry(Sbc, Absolute, 4),
        0xEE => entry(Inc, Absolute, 6),

        0xF0 => entry(Beq, Relative, 2),
        0xF1 => entry_star(Sbc, IndirectY, 5),
        0xF5 => entry(Sbc, ZeroPageX, 4),
        0xF6 => entry(Inc, ZeroPageX, 6),
        0xF8 => entry(Sed, Implied, 2),
        0xF9 => entry_star(Sbc, AbsoluteY, 4),
        0xFD => entry_star(Sbc, AbsoluteX, 4),
        0xFE => entry(Inc, AbsoluteX, 7),

        // "for bit m: RMB 07h, SMB 87h, BBR 0Fh, BBS 8Fh, each + 10h × m"; "RMB and SMB 5, BBR and BBS 5 and a branch's
        // extras"
        _ => match opcode & 0x8F {
            0x07 => entry(Rmb(opcode >> 4 & 7), ZeroPage, 5),
            0x87 => entry(Smb(opcode >> 4 & 7), ZeroPage, 5),
            0x0F => entry(Bbr(opcode >> 4 & 7), ZeroPageRelative, 5),
            0x8F => entry(Bbs(opcode >> 4 & 7), ZeroPageRelative, 5),
            _ => entry(Undefined, Implied, 0),
        },
    }
}

const fn build_table() -> [Entry; 256] {
    let mut table = [entry(Operation::Undefined, Addressing::Implied, 0); 256];
    let mut opcode = 0;
    while opcode < 256 {
        table[opcode] = describe(opcode as u8);
        opcode += 1;
    }
    table
}

/// The 256 entries.
pub const TABLE: [Entry; 256] = build_table();

/// Whether the opcode is one of the 183 defined ones.
pub fn defined(opcode: u8) -> bool {
    TABLE[usize::from(opcode)].operation != Operation::Undefined
}
