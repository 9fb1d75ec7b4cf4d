//! Firmware that sends the bytes 0 to 255, and firmware that receives them.

/// More clocks than either takes before it sends or receives.
pub const BEFORE: u32 = 1_000;

/// More clocks than the firmware takes from a byte's end to the next write of 17h, where it waits for that end.
pub const PAUSE: u32 = 40;

/// Where a receiver puts its bytes.
pub const RECEIVED: usize = 0x0300;

const START: usize = 0x0200;

/// When the next byte is written.
#[derive(Clone, Copy, PartialEq, Eq)]
pub enum Next {
    /// As soon as the transmitter has room for it (SCSR6).
    AtOnce,
    /// Where the transmitter has run empty (SCSR7).
    AfterUnderRun,
}

/// A sender, for a value of SCCR and of counter A's latch, into a memory of zeros.
pub fn put_sender(memory: &mut [u8], sccr: u8, latch: u16, next: Next) {
    let [low, high] = latch.to_le_bytes();
    #[rustfmt::skip]
    let mut program = vec![
        0xA2, 0x00, // LDX #00h
        0xA9, low, // LDA #
        0x85, 0x18, // STA 18h        lower latch A
        0xA9, high, // LDA #
        0x85, 0x1A, // STA 1Ah        upper latch A, counter A loaded
        0xA9, sccr, // LDA #
        0x85, 0x15, // STA SCCR
    ];
    let again = program.len();
    #[rustfmt::skip]
    program.extend([
        0x6F, 0x16, 0xFD, // BBR6 SCSR, here  until there is room
        0x86, 0x17, // STX 17h
    ]);
    if next == Next::AfterUnderRun {
        program.extend([0x7F, 0x16, 0xFD]); // BBR7 SCSR, here
    }
    program.push(0xE8); // INX
    go_round(&mut program, again);
    put(memory, &program);
}

/// A receiver in shift-register mode, into a memory of zeros.
pub fn put_shift_receiver(memory: &mut [u8]) {
    let [low, high] = (RECEIVED as u16).to_le_bytes();
    #[rustfmt::skip]
    let mut program = vec![
        0xA2, 0x00, // LDX #00h
        0xA9, 0x50, // LDA #50h
        0x85, 0x15, // STA SCCR
    ];
    let again = program.len();
    #[rustfmt::skip]
    program.extend([
        0x0F, 0x16, 0xFD, // BBR0 SCSR, here  until a byte is there
        0xA5, 0x17, // LDA 17h
        0x9D, low, high, // STA RECEIVED,X
        0xE8, // INX
    ]);
    go_round(&mut program, again);
    put(memory, &program);
}

/// Goes back while X is not 0, then stays.
fn go_round(program: &mut Vec<u8>, again: usize) {
    let back = program.len() + 2 - again;
    #[rustfmt::skip]
    program.extend([
        0xD0, 0u8.wrapping_sub(back as u8), // BNE
        0xF0, 0xFE, // BEQ, here
    ]);
}

fn put(memory: &mut [u8], program: &[u8]) {
    memory[START..START + program.len()].copy_from_slice(program);
    memory[0xFFFC..0xFFFE].copy_from_slice(&(START as u16).to_le_bytes());
}
