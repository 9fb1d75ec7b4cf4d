//! `mill latch`: counter A's latch for a bit rate (document 02, U2 and U9).
use super::CODES;
use crate::failure::{Failure, Verdict};
use crate::files::print;
use crate::units::{bit_rate, hundredths, rate, tolerance};
use clap::Parser;
use r6501q::{latch, Latch, Number};

/// The smallest value of counter A's latch that makes the bit rate, or that there is none (exit code 1).
#[derive(Parser)]
#[command(after_help = CODES)]
#[group(skip)]
pub struct Arguments {
    /// Clocks a second, as 1MHz
    #[arg(long, value_name = "RATE", value_parser = rate)]
    clock: u32,
    /// Bits a second
    #[arg(long, value_name = "RATE", value_parser = bit_rate)]
    baud: u32,
    /// How far the rate made may be off, as 2%
    #[arg(long, value_name = "PERCENT", default_value = ACCEPTABLE, value_parser = tolerance)]
    tolerance: u32,
}

/// The error that source document 001, 6.1.5, calls acceptable.
const ACCEPTABLE: &str = "1.5%";

pub fn act(arguments: &Arguments) -> Result<Verdict, Failure> {
    let &Arguments { clock, baud, tolerance } = arguments;
    let described = |value| described(clock, baud, value);
    match latch(clock, baud, tolerance) {
        Latch::Fits(value) => print(&(described(value) + "\n")).map(|()| Verdict::Done),
        Latch::Nothing => {
            let nearest: String = nearest(clock, baud).map(described).map(|line| format!("  {line}\n")).concat();
            print(&format!("no latch value fits; the nearest are:\n{nearest}")).map(|()| Verdict::Differs)
        }
        Latch::Refused => Err(Failure::Usage(Number::RateOutOfLimits.to_string())),
    }
}

/// The values around the exact one, clock / (16 × baud) - 1.
fn nearest(clock: u32, baud: u32) -> [u16; 2] {
    let below = (u64::from(clock) / (16 * u64::from(baud))).saturating_sub(1);
    [below, below + 1].map(|value| u16::try_from(value).unwrap_or(u16::MAX))
}

/// A value, the bit and the rate that it makes, and how far that is off.
fn described(clock: u32, baud: u32, value: u16) -> String {
    let bit = 16 * (u128::from(value) + 1);
    let (clock, wanted) = (u128::from(clock), bit * u128::from(baud));
    let made = hundredths(clock, bit);
    let off = hundredths(100 * clock.abs_diff(wanted), wanted);
    let side = if clock >= wanted { "+" } else { "-" };
    format!("latch {value} ({value:04X}h): a bit is {bit} clocks, {made} bits a second, {side}{off}%")
}

#[cfg(test)]
mod tests {
    use super::*;

    #[test]
    fn values_are_described_by_what_they_make() {
        let twelve = "latch 12 (000Ch): a bit is 208 clocks, 4807.69 bits a second, +0.16%";
        assert_eq!(described(1_000_000, 4_800, 12), twelve);
        assert_eq!(
            described(1_000_000, 9_600, 6),
            "latch 6 (0006h): a bit is 112 clocks, 8928.57 bits a second, -6.99%"
        );
    }

    #[test]
    fn the_nearest_values_are_around_the_exact_one() {
        assert_eq!(nearest(1_000_000, 9_600), [5, 6]);
        assert_eq!(nearest(1_000_000, 10_000_000), [0, 1]);
        assert_eq!(nearest(10_000_000, 1), [65_535, 65_535]);
    }
}
