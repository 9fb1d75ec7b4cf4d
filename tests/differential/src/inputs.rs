//! Input lists: edges, NMI, RES, characters on PA7, and shift clocks on PA4 with their data on PA7.

use crate::random::Random;
use plain_clock::serial::{data_bits, parity_bit, parity_enabled};

const HIGH: u8 = 0x40;
const PA4: u8 = 4;
const PA7: u8 = 7;
const NMI: u8 = 32;
const RES: u8 = 33;

/// Inputs by their distance from the state's clock, in any order until `finish`.
pub struct Inputs {
    list: Vec<(u32, u8)>,
}

impl Inputs {
    pub fn new() -> Self {
        Inputs { list: Vec::new() }
    }

    pub fn clear(&mut self) {
        self.list.clear();
    }

    fn add(&mut self, distance: u32, pin: u8, level: bool) {
        self.list.push((distance.max(1), pin | if level { HIGH } else { 0 }));
    }

    /// Single changes on pins that do something.
    pub fn edges(&mut self, random: &Random, span: u32, number: u32) {
        for _ in 0..number {
            let pin = match random.below(10) {
                0..=3 => random.below(4) as u8,
                4..=6 => random.between(4, 5) as u8,
                7 => PA7,
                8 => NMI,
                _ => random.below(32) as u8,
            };
            let distance = random.between(1, span);
            let level = random.flag();
            self.add(distance, pin, level);
            if random.percent(60) {
                self.add(distance + random.between(1, 6), pin, !level);
            }
        }
    }

    /// A pulse train on PA4 or PA5.
    pub fn pulses(&mut self, random: &Random, pin: u8, number: u32) {
        let mut distance = random.between(1, 12);
        let step = random.between(1, 9);
        for i in 0..number {
            self.add(distance, pin, i % 2 == 1);
            distance += step + random.below(3);
        }
    }

    /// RES low for some clocks, sometimes at the start, sometimes to the end.
    pub fn reset(&mut self, random: &Random, span: u32) {
        let from = random.pick(&[1, random.between(1, span)]);
        let low = random.pick(&[1, 2, random.between(1, 8), random.between(1, 60)]);
        self.add(from, RES, false);
        if random.percent(90) {
            self.add(from + low, RES, true);
        }
        if random.percent(30) {
            // an NMI fall or an edge under RES low
            self.add(from + random.below(low + 1), random.pick(&[NMI, 0, 2, 4, 5]), random.percent(30));
        }
    }

    /// A fresh chip is held (document 02, U8): mostly RES gets high on the first clock, behind that clock's other
    /// inputs, else later or never.
    pub fn release(&mut self, random: &Random, span: u32) {
        match random.below(20) {
            0 => {}
            1..=2 => self.add(random.between(2, span), RES, true),
            _ => self.add(1, RES, true),
        }
    }

    pub fn nmi(&mut self, random: &Random, span: u32) {
        let from = random.between(1, span);
        self.add(from, NMI, false);
        if random.percent(80) {
            self.add(from + random.between(1, 10), NMI, true);
        }
    }

    /// Characters on PA7 in the format of `sccr`, a bit being 16 underflows of counter A long; some with a wrong parity
    /// or a low stop.
    pub fn characters(&mut self, random: &Random, sccr: u8, latch_a: u16, span: u32) {
        let mut bit_length = 16 * (u32::from(latch_a) + 1);
        if random.percent(15) {
            bit_length = bit_length * random.between(90, 110) / 100;
        }
        let mut distance = random.between(1, 20);
        self.add(distance, PA7, true);
        distance += random.between(1, 2 * bit_length);
        while distance < span {
            distance = self.character(random, sccr, bit_length, distance);
            distance += random.pick(&[0, 1, bit_length / 2, bit_length, random.below(2 * bit_length)]);
            if random.percent(10) {
                // a low shorter than half a bit
                self.add(distance, PA7, false);
                self.add(distance + random.between(1, bit_length / 2), PA7, true);
                distance += bit_length;
            }
        }
    }

    /// One character from `distance` on; gives the distance of its end, where the line is high.
    fn character(&mut self, random: &Random, sccr: u8, bit_length: u32, distance: u32) -> u32 {
        let data = random.byte() & (0xFF >> (8 - data_bits(sccr)));
        let mut bits = vec![false];
        bits.extend((0..data_bits(sccr)).map(|bit| data >> bit & 1 == 1));
        if parity_enabled(sccr) {
            let right = parity_bit(sccr, data) == 1;
            bits.push(right != random.percent(25));
        }
        bits.push(!random.percent(20));
        let mut at = distance;
        let mut line = true;
        for bit in bits {
            // A repeated level is an input too.
            if bit != line || random.percent(4) {
                self.add(at, PA7, bit);
            }
            line = bit;
            at += bit_length;
        }
        if !line {
            self.add(at, PA7, true);
        }
        at
    }

    /// A shift clock on PA4 from outside with bits on PA7, each put there between a fall and the next rise, sometimes
    /// on the clock of the rise; now and then it pauses.
    pub fn shifted_bits(&mut self, random: &Random, span: u32) {
        let low = random.pick(&[1, 1, 2, 4, random.between(1, 8)]);
        let high = random.pick(&[1, 1, 2, 4, random.between(1, 8)]);
        let jitter = random.pick(&[0, 0, 1, 3]);
        let mut distance = random.between(1, 12);
        while distance < span {
            let rise = distance + low + random.below(jitter + 1);
            self.add(distance, PA4, false);
            self.add(random.pick(&[distance, rise, random.between(distance, rise)]), PA7, random.flag());
            self.add(rise, PA4, true);
            distance = rise + high + random.below(jitter + 1);
            if random.percent(4) {
                distance += random.between(1, 60);
            }
        }
    }

    /// Levels of PA7 for bits that the chip itself clocks.
    pub fn line(&mut self, random: &Random, span: u32) {
        let step = random.pick(&[1, 2, 3, 5, 10]);
        let mut distance = random.between(1, 6);
        while distance < span {
            self.add(distance, PA7, random.flag());
            distance += random.between(1, 2 * step);
        }
    }

    /// The list by absolute clocks: clocks never fall, and within one clock pins rise strictly. Inputs that have no
    /// clock are left out.
    pub fn finish(&mut self, clock: u32, clocks: &mut Vec<u32>, codes: &mut Vec<u8>) {
        self.list.sort_unstable_by_key(|&(distance, code)| (distance, code % 64));
        self.list.dedup_by_key(|&mut (distance, code)| (distance, code % 64));
        clocks.clear();
        codes.clear();
        for &(distance, code) in &self.list {
            if let Some(at) = clock.checked_add(distance) {
                clocks.push(at);
                codes.push(code);
            }
        }
    }
}
