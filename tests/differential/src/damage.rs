//! Damage that a call must refuse: numbers 1, 2, 3 and 5, one or two at once. Number 4 comes with the calls.

use crate::random::Random;
use crate::scenario::{Call, Scenario};
use crate::states::waiting;
use differential::convert::DAMAGES;

/// What the bytes of a state have and the model's state cannot (`differential::convert`), and the byte above 1 for it.
#[derive(Clone, Copy, PartialEq, Eq, Debug)]
pub struct ByteDamage {
    pub damage: u32,
    pub byte: u8,
}

pub fn damage(random: &Random, scenario: &mut Scenario) {
    let times = random.pick(&[1, 1, 1, 2, 3]);
    for _ in 0..times {
        match random.below(10) {
            0..=1 => memory_length(random, scenario),
            2..=4 => field(random, scenario),
            5 => {
                let damage = random.below(DAMAGES);
                let byte = random.pick(&[2, 3, 0x80, 0xFF, random.between(2, 255) as u8]);
                scenario.byte_damage = Some(ByteDamage { damage, byte });
            }
            6 => list_lengths(random, scenario),
            _ => pin_list(random, scenario),
        }
    }
    if random.percent(10) {
        // 4 too, whose place among the numbers is between 3 and 5
        let clock = scenario.state.clock;
        let calls = &mut scenario.lists[0].calls;
        calls.insert(0, if clock > 0 { Call::Run(u32::MAX - random.below(clock)) } else { Call::Run(1) });
    }
}

fn memory_length(random: &Random, scenario: &mut Scenario) {
    let length = random.pick(&[0, 1, 0x40, 65_535, 65_537, random.below(65_536) as usize]);
    scenario.memory.resize(length, 0xA5);
}

/// One field out of its range, or a byte waiting with wait 0.
fn field(random: &Random, scenario: &mut Scenario) {
    let state = &mut scenario.state;
    match random.below(12) {
        0 => state.p |= random.pick(&[0x10, 0x20, 0x30]),
        1 => state.wait = random.pick(&[7, 8, 0xFF, random.between(7, 255) as u8]),
        2 => state.ifr |= random.pick(&[0x40, 0x80, 0xC0]),
        3 => state.transmitter.bits_left = random.pick(&[13, 14, 0xFF, random.between(13, 255) as u8]),
        4 => state.transmitter.phase = random.pick(&[16, 17, 0xFF, random.between(16, 255) as u8]),
        5 => state.transmitter.register |= 1 << random.between(12, 15),
        6 => state.receiver.sub_interval = random.pick(&[8, 9, 0xFF, random.between(8, 255) as u8]),
        7 => state.receiver.half = random.pick(&[2, 3, 0xFF, random.between(2, 255) as u8]),
        8 => state.receiver.bits_left = random.pick(&[12, 13, 0xFF, random.between(12, 255) as u8]),
        9 => state.receiver.register |= 1 << random.between(11, 15),
        _ => {
            state.wait = 0;
            state.waiting = Some(waiting(random, state.sp));
        }
    }
}

fn list_lengths(random: &Random, scenario: &mut Scenario) {
    match random.below(4) {
        0 => scenario.input_clocks.push(u32::MAX),
        1 => scenario.input_codes.push(0x40),
        2 => scenario.output_clocks.push(0x1111_1111),
        _ => scenario.output_words.push(0x2222_2222),
    }
}

/// The pin list's rule broken at one place.
fn pin_list(random: &Random, scenario: &mut Scenario) {
    let clock = scenario.state.clock;
    let (clocks, codes) = (&mut scenario.input_clocks, &mut scenario.input_codes);
    if clocks.is_empty() || codes.is_empty() {
        clocks.push(clock.saturating_add(random.between(1, 50)));
        codes.push(random.below(32) as u8);
    }
    let at = random.below(clocks.len().min(codes.len()) as u32) as usize;
    match random.below(5) {
        0 => codes[at] = random.pick(&[34, 35, 63, 98, 127, 128, 0x80 | codes[at], 0xFF]),
        1 => clocks[0] = random.pick(&[clock, clock.saturating_sub(1), 0]),
        // the same pin again on the same clock, with this or the other level
        2 => {
            clocks.insert(at, clocks[at]);
            codes.insert(at, codes[at] ^ random.pick(&[0, 0x40]));
        }
        // a clock that falls
        3 => {
            clocks.insert(at, clocks[at].saturating_add(1));
            codes.insert(at, codes[at]);
        }
        // pins that fall within one clock
        _ => {
            clocks.insert(at, clocks[at]);
            codes.insert(at, random.between(u32::from(codes[at] % 64).min(33), 33) as u8);
        }
    }
}
