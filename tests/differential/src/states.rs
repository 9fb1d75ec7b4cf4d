//! Start states. Every well-formed state counts, reachable or not (01, Machine state, "Well-formed").

use crate::code::REGISTERS;
use crate::random::Random;
use plain_clock::pins::pin_levels;
use plain_clock::state::{ALL_PINS, FLAG_I};
use plain_clock::{fresh, Receiver, State, Transmitter, Turn, Waiting};

/// A counter's value, mostly a few clocks before its underflow.
pub fn count(random: &Random) -> u16 {
    match random.below(20) {
        0..=4 => 0,
        5..=9 => random.between(1, 4) as u16,
        10..=14 => random.between(5, 40) as u16,
        15..=16 => random.between(41, 400) as u16,
        _ => random.word(),
    }
}

/// A latch, mostly small, so that the counter underflows often.
pub fn latch(random: &Random) -> u16 {
    match random.below(20) {
        0..=3 => 0,
        4..=9 => random.between(1, 4) as u16,
        10..=15 => random.between(5, 30) as u16,
        16..=17 => random.between(31, 255) as u16,
        _ => random.word(),
    }
}

/// A serial control byte: mostly a half or both on, in either mode and any format.
pub fn serial_control(random: &Random) -> u8 {
    match random.below(20) {
        0..=6 => 0,
        7..=12 => random.pick(&[0x40, 0x80, 0xC0]) | random.below(16) as u8,
        13..=16 => shift_control(random),
        _ => random.byte(),
    }
}

/// A serial control byte with the transmitter or the receiver in shift-register mode, the other half on or off.
pub fn shift_control(random: &Random) -> u8 {
    random.pick(&[0xA0, 0xA0, 0xB0, 0xE0, 0xF0, 0x50, 0x50, 0x50, 0xD0, 0xD0]) | random.below(16) as u8
}

pub fn interrupt_enables(random: &Random) -> u8 {
    match random.below(10) {
        0..=3 => 0,
        4..=6 => 1 << random.below(8),
        _ => random.byte(),
    }
}

fn transmitter(random: &Random) -> Transmitter {
    let bits_left = random.pick(&[0, 0, 0, 1, 1, 2, random.below(13) as u8]);
    let phase = random.pick(&[0, 14, 15, 15, random.below(16) as u8]);
    Transmitter { bits_left, phase, register: random.word() & 0xFFF }
}

fn receiver(random: &Random) -> Receiver {
    Receiver {
        sub_interval: random.pick(&[0, 2, 3, 6, 7, 7, random.below(8) as u8]),
        half: random.below(2) as u8,
        bits_left: random.pick(&[0, 0, 0, 1, 1, 2, random.below(12) as u8]),
        register: random.word() & 0x7FF,
    }
}

/// External levels: RES mostly high.
fn external(random: &Random) -> u64 {
    let ports = match random.below(10) {
        0..=4 => u32::MAX,
        5..=7 => random.long() | random.long(),
        _ => random.long(),
    };
    let nmi = u64::from(random.percent(80));
    let res = u64::from(random.percent(94));
    res << 33 | nmi << 32 | u64::from(ports)
}

fn stack_pointer(random: &Random) -> u8 {
    match random.below(10) {
        0..=3 => 0xFF,
        4..=6 => random.between(0x40, 0xFF) as u8,
        7 => random.byte(),
        _ => random.below(0x43) as u8,
    }
}

/// A clock with room for any scenario above it.
fn clock(random: &Random) -> u32 {
    match random.below(10) {
        0..=1 => 0,
        2..=3 => random.below(1000),
        _ => random.below(u32::MAX - (1 << 20)),
    }
}

/// A byte waiting, mostly for a register, else for the stack, a vector or anywhere.
pub fn waiting(random: &Random, sp: u8) -> Waiting {
    let address = match random.below(10) {
        0..=3 => u16::from(random.pick(&REGISTERS)),
        4 => random.below(0x40) as u16,
        5..=6 => u16::from(sp.wrapping_add(random.below(8) as u8)),
        7 => random.pick(&[0xFFFA, 0xFFFB, 0xFFFC, 0xFFFD, 0xFFFE, 0xFFFF]),
        8 => 0x200 + random.below(0x2000) as u16,
        _ => random.word(),
    };
    Waiting { address, value: random.pick(&[0x00, 0xFF, random.byte(), random.byte()]) }
}

/// Any well-formed state, each field evenly over its range; but RES is mostly high.
fn even(random: &Random) -> State {
    let wait = random.below(7) as u8;
    let waits = wait > 0 && random.flag();
    State {
        a: random.byte(),
        x: random.byte(),
        y: random.byte(),
        sp: random.byte(),
        p: random.byte() & 0xCF,
        pc: random.word(),
        wait,
        waiting: waits.then(|| Waiting { address: random.word(), value: random.byte() }),
        reset_due: random.flag(),
        nmi_due: random.flag(),
        ports: random.long().to_le_bytes(),
        counter_a: random.word(),
        counter_b: random.word(),
        latch_a: random.word(),
        latch_b: random.word(),
        latch_c: random.word(),
        turn: turn(random),
        ifr: random.byte() & 0x3F,
        ier: random.byte(),
        mcr: random.byte(),
        sccr: random.byte(),
        scsr: random.byte(),
        data_sent: random.byte(),
        data_received: random.byte(),
        transmitter: Transmitter {
            bits_left: random.below(13) as u8,
            phase: random.below(16) as u8,
            register: random.word() & 0xFFF,
        },
        receiver: Receiver {
            sub_interval: random.below(8) as u8,
            half: random.below(2) as u8,
            bits_left: random.below(12) as u8,
            register: random.word() & 0x7FF,
        },
        external: u64::from(random.percent(80)) << 33 | u64::from(random.flag()) << 32 | u64::from(random.long()),
        last: (u64::from(random.long()) << 32 | u64::from(random.long())) & ALL_PINS,
        clock: clock(random),
    }
}

fn turn(random: &Random) -> Turn {
    random.pick(&[Turn::B, Turn::C])
}

/// A state a few clocks before something happens.
fn near_events(random: &Random) -> State {
    let wait = random.pick(&[0, 0, 0, 1, 2, random.below(7) as u8]);
    let sp = stack_pointer(random);
    let waits = wait > 0 && random.percent(60);
    let mut state = State {
        a: random.byte(),
        x: random.pick(&[0, 1, 2, 0x10, 0xFF, random.byte()]),
        y: random.pick(&[0, 1, 2, 0x10, 0xFF, random.byte()]),
        sp,
        p: random.byte() & 0xCF & !FLAG_I,
        pc: 0,
        wait,
        waiting: waits.then(|| waiting(random, sp)),
        reset_due: random.percent(5),
        nmi_due: random.percent(8),
        ports: random.pick(&[[0xFF; 4], random.long().to_le_bytes()]),
        counter_a: count(random),
        counter_b: count(random),
        latch_a: latch(random),
        latch_b: latch(random),
        latch_c: latch(random),
        turn: turn(random),
        ifr: random.pick(&[0, 0, random.byte() & 0x3F]),
        ier: interrupt_enables(random),
        mcr: random.pick(&[0, random.byte(), random.byte(), random.byte() & 0x2F]),
        sccr: serial_control(random),
        scsr: random.pick(&[0x40, 0x00, 0x40, random.byte(), random.byte()]),
        data_sent: random.byte(),
        data_received: random.byte(),
        transmitter: transmitter(random),
        receiver: receiver(random),
        external: external(random),
        last: 0,
        clock: clock(random),
    };
    if random.percent(55) {
        state.p |= FLAG_I;
    }
    settle_levels(random, &mut state);
    state
}

/// Last levels: mostly those that the pins have, else others, which makes edges on the first clock.
pub fn settle_levels(random: &Random, state: &mut State) {
    state.last = pin_levels(state);
    if random.percent(30) {
        let other = u64::from(random.long() & random.long()) | u64::from(random.below(4)) << 32;
        state.last ^= other;
    }
}

/// A start state, and which kind it is.
#[derive(Clone, Copy, PartialEq, Eq, Debug)]
pub enum StateKind {
    Fresh,
    Even,
    NearEvents,
}

pub fn state(random: &Random, kind: StateKind) -> State {
    match kind {
        StateKind::Fresh => fresh(),
        StateKind::Even => even(random),
        StateKind::NearEvents => near_events(random),
    }
}
