//! Sends text to the chip's serial receiver on PA7, frame by frame, and prints what the firmware received.
//! usage: serial [text]
use r6501q::{Chip, Frame, Number, Pin};

// Counter A underflows on each clock, and a bit takes 16 ticks.
const CLOCKS_PER_BIT: u32 = 16;

// When the first frame starts: the firmware has switched the receiver on by then.
const FIRST_START: u32 = 100;

// Waits for a byte, puts it on port B, and counts it on port C so that each one makes a record.
const FIRMWARE: [u8; 22] = [
    0xA9, 0x00, // LDA #00h
    0x85, 0x18, // STA 18h        lower latch A
    0x85, 0x1A, // STA 1Ah        upper latch A, counter A loaded
    0xA9, 0x40, // LDA #40h
    0x85, 0x15, // STA SCCR       receiver on: 8 bits, no parity
    0x0F, 0x16, 0xFD, // BBR0 SCSR, here  until a byte is there
    0xA5, 0x17, // LDA 17h        the byte
    0x85, 0x01, // STA port B
    0xE6, 0x02, // INC port C
    0x4C, 0x0A, 0x02, // JMP to BBR0
];

fn main() -> Result<(), Number> {
    let text = std::env::args().nth(1).unwrap_or_else(|| String::from("R6501Q"));
    let mut chip = Chip::new();
    chip.memory[0x200..0x200 + FIRMWARE.len()].copy_from_slice(&FIRMWARE);
    chip.memory[0xFFFC..0xFFFE].copy_from_slice(&0x0200u16.to_le_bytes());

    let mut clock = FIRST_START;
    for level in text.bytes().flat_map(|byte| Frame::EIGHT_BITS.levels(byte)) {
        chip.input(clock, Pin::PA7, level)?;
        clock += CLOCKS_PER_BIT;
    }
    chip.release();
    chip.run(clock)?;

    let mut received = Vec::new();
    let mut counted = 0xFF;
    for [_, port_b, port_c, _] in chip.records().map(|record| record.ports()) {
        if port_c != counted {
            counted = port_c;
            received.push(port_b);
        }
    }
    println!("{}", String::from_utf8_lossy(&received));
    Ok(())
}
