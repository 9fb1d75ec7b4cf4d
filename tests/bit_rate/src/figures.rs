//! Random figures near where an answer changes: exact multiples and the ends of the tolerance with one clock more or
//! less, the highest latch value, and each limit with one more.
use crate::judge::Figures;
use differential::random::Random;

const HIGHEST_RATE: u32 = 10_000_000;

/// The clocks of an underflow, the latch value plus 1, with those past the highest.
fn clocks(random: &Random) -> u64 {
    u64::from(match random.below(8) {
        0 => random.between(1, 4),
        1 => random.between(65_530, 65_540),
        2 => random.between(1, 70_000),
        3 => 1 << random.below(17),
        _ => random.between(1, 1 << random.below(17)),
    })
}

fn tolerance(random: &Random) -> u32 {
    match random.below(4) {
        0 => random.pick(&[0, 0, 1, 998, 999, 1_000]),
        1 => random.between(0, 30),
        2 => random.pick(&[15, 20, 50, 90, 500]),
        _ => random.between(0, 1_000),
    }
}

/// A bit rate for which these clocks are within reach, or any.
fn bit_rate(random: &Random, clocks: u64) -> u32 {
    let reach = (u64::from(HIGHEST_RATE) / (16 * clocks)).clamp(1, u64::from(HIGHEST_RATE)) as u32;
    match random.below(8) {
        0 => random.pick(&[1, 2, HIGHEST_RATE - 1, HIGHEST_RATE]),
        1 => random.between(1, HIGHEST_RATE),
        2 => random.pick(&[50, 75, 110, 150, 300, 600, 1_200, 2_400, 3_600, 4_800, 7_200, 9_600, 62_500]),
        3 => reach,
        _ => random.between(1, reach),
    }
}

/// A clock rate at or beside one that these clocks make, within the limits.
fn clock_rate(random: &Random, bit_rate: u32, clocks: u64, tolerance: u32) -> u32 {
    let exact = 16 * u64::from(bit_rate) * clocks;
    let t = u64::from(tolerance);
    let end = match random.below(8) {
        0 => return random.between(1, HIGHEST_RATE),
        1 => return random.pick(&[1, 2, 1_000_000, 2_000_000, HIGHEST_RATE - 1, HIGHEST_RATE]),
        2 | 3 => exact,
        4 | 5 => exact * (1_000 + t) / 1_000,
        _ => exact * (1_000 - t) / 1_000,
    };
    (end + u64::from(random.below(4))).saturating_sub(2).clamp(1, u64::from(HIGHEST_RATE)) as u32
}

/// Figures of which some two in a hundred are out of their limits.
pub fn figures(random: &Random) -> Figures {
    let clocks = clocks(random);
    let tolerance = tolerance(random);
    let bit_rate = bit_rate(random, clocks);
    let good = Figures { clock_rate: clock_rate(random, bit_rate, clocks, tolerance), bit_rate, tolerance };
    if !random.percent(2) {
        return good;
    }
    match random.below(3) {
        0 => Figures { clock_rate: random.pick(&[0, HIGHEST_RATE + 1, u32::MAX]), ..good },
        1 => Figures { bit_rate: random.pick(&[0, HIGHEST_RATE + 1, u32::MAX]), ..good },
        _ => Figures { tolerance: random.pick(&[1_001, 1_002, u32::MAX]), ..good },
    }
}
