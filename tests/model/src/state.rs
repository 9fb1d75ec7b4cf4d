//! 01, Machine state.

/// Flag bits of P (001, 3.8).
pub const FLAG_C: u8 = 0x01;
pub const FLAG_Z: u8 = 0x02;
pub const FLAG_I: u8 = 0x04;
pub const FLAG_D: u8 = 0x08;
pub const FLAG_B: u8 = 0x10;
pub const FLAG_5: u8 = 0x20;
pub const FLAG_V: u8 = 0x40;
pub const FLAG_N: u8 = 0x80;

/// Indices of the port output latches.
pub const PORT_A: usize = 0;
pub const PORT_D: usize = 3;

/// All 34 pins high: bits 0 to 31 are A0 to D7, bit 32 NMI, bit 33 RES.
pub const ALL_PINS: u64 = (1 << 34) - 1;
const RES: u64 = 1 << 33;

/// "B's reload turn (B or C)".
#[derive(Clone, Copy, PartialEq, Eq, Debug)]
pub enum Turn {
    B,
    C,
}

/// "Serial progress: transmitter bits left (0 to 12), phase (0 to 15), register (12 bits)".
#[derive(Clone, PartialEq, Eq, Debug)]
pub struct Transmitter {
    pub bits_left: u8,
    pub phase: u8,
    pub register: u16,
}

/// "receiver sub-interval (0 to 7), half (0 or 1), bits left (0 to 11), register (11 bits)".
#[derive(Clone, PartialEq, Eq, Debug)]
pub struct Receiver {
    pub sub_interval: u8,
    pub half: u8,
    pub bits_left: u8,
    pub register: u16,
}

/// Document 02, U6: "one byte waiting, with its address".
#[derive(Clone, Copy, PartialEq, Eq, Debug)]
pub struct Waiting {
    pub address: u16,
    pub value: u8,
}

/// Every field of 01, Machine state, and of document 02, U6.
#[derive(Clone, PartialEq, Eq, Debug)]
pub struct State {
    pub a: u8,
    pub x: u8,
    pub y: u8,
    pub sp: u8,
    pub p: u8,
    pub pc: u16,
    pub wait: u8,
    /// The byte that a store still has to put, "or none" (document 02, U6).
    pub waiting: Option<Waiting>,
    pub reset_due: bool,
    pub nmi_due: bool,
    /// Port output latches A to D.
    pub ports: [u8; 4],
    pub counter_a: u16,
    pub counter_b: u16,
    pub latch_a: u16,
    pub latch_b: u16,
    pub latch_c: u16,
    pub turn: Turn,
    /// IFR bits 0 to 5; bits 6 and 7 are formulas over SCSR.
    pub ifr: u8,
    pub ier: u8,
    pub mcr: u8,
    pub sccr: u8,
    pub scsr: u8,
    pub data_sent: u8,
    pub data_received: u8,
    pub transmitter: Transmitter,
    pub receiver: Receiver,
    /// External levels of 34 pins.
    pub external: u64,
    /// Last pin levels of 34 pins.
    pub last: u64,
    pub clock: u32,
}

/// "serial data and progress 0", transmitter part.
pub fn fresh_transmitter() -> Transmitter {
    Transmitter { bits_left: 0, phase: 0, register: 0 }
}

/// "serial data and progress 0", receiver part.
pub fn fresh_receiver() -> Receiver {
    Receiver { sub_interval: 0, half: 0, bits_left: 0, register: 0 }
}

/// 01, Machine state, "Fresh: ..."; document 02, U8: "Make fresh mean RES low in both its levels, all else as before."
pub fn fresh() -> State {
    State {
        a: 0,
        x: 0,
        y: 0,
        sp: 0xFF,
        p: FLAG_I,
        pc: 0,
        wait: 0,
        waiting: None,
        reset_due: true,
        nmi_due: false,
        ports: [0xFF; 4],
        counter_a: 0xFFFF,
        counter_b: 0xFFFF,
        latch_a: 0xFFFF,
        latch_b: 0xFFFF,
        latch_c: 0xFFFF,
        turn: Turn::C,
        ifr: 0,
        ier: 0,
        mcr: 0,
        sccr: 0,
        scsr: 0x40,
        data_sent: 0,
        data_received: 0,
        transmitter: fresh_transmitter(),
        receiver: fresh_receiver(),
        external: ALL_PINS & !RES,
        last: ALL_PINS & !RES,
        clock: 0,
    }
}

/// 01, Machine state, "Well-formed: every field is within its range here." Field by field; the one rule across fields
/// is document 02's, U6: "A byte waiting with wait 0 isn't well-formed."
pub fn well_formed(state: &State) -> bool {
    state.p & (FLAG_B | FLAG_5) == 0
        && state.wait <= 6
        && (state.waiting.is_none() || state.wait > 0)
        && state.ifr <= 0x3F
        && well_formed_transmitter(&state.transmitter)
        && well_formed_receiver(&state.receiver)
        && state.external <= ALL_PINS
        && state.last <= ALL_PINS
}

fn well_formed_transmitter(transmitter: &Transmitter) -> bool {
    transmitter.bits_left <= 12 && transmitter.phase <= 15 && transmitter.register <= 0xFFF
}

fn well_formed_receiver(receiver: &Receiver) -> bool {
    receiver.sub_interval <= 7 && receiver.half <= 1 && receiver.bits_left <= 11 && receiver.register <= 0x7FF
}
