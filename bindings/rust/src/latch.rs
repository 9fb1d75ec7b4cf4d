//! The smallest latch value of counter A for a wanted bit rate (document 02, U2 and U9).
use crate::calls::number;
use crate::{library, Number};
use std::fmt;

/// The highest clock rate and the highest bit rate that [`latch`] takes.
pub const HIGHEST_RATE: u32 = 10_000_000;

/// The highest tolerance that [`latch`] takes, in thousandths.
pub const HIGHEST_TOLERANCE: u32 = 1_000;

/// The answer to a wanted bit rate.
#[must_use]
#[derive(Clone, Copy, PartialEq, Eq, Debug)]
pub enum Latch {
    /// The smallest latch value that makes the bit rate within the tolerance.
    Fits(u16),
    /// No latch value of 0 to 65,535 does.
    Nothing,
    /// A rate is 0, or a figure is above its limit: [`Number::RateOutOfLimits`].
    Refused,
}

impl Latch {
    /// Document 02's number of the answer.
    ///
    /// ```
    /// use r6501q::{Latch, Number};
    ///
    /// assert_eq!(Latch::Nothing.number(), Number::Done);
    /// assert_eq!(Latch::Refused.number(), Number::RateOutOfLimits);
    /// ```
    #[must_use]
    pub fn number(self) -> Number {
        match self {
            Latch::Fits(_) | Latch::Nothing => Number::Done,
            Latch::Refused => Number::RateOutOfLimits,
        }
    }
}

impl fmt::Display for Latch {
    fn fmt(&self, f: &mut fmt::Formatter<'_>) -> fmt::Result {
        match self {
            Latch::Fits(value) => write!(f, "latch {value} ({value:04X}h)"),
            Latch::Nothing => write!(f, "no latch value fits"),
            Latch::Refused => write!(f, "{}", Number::RateOutOfLimits),
        }
    }
}

/// The smallest latch value N of counter A with which the serial channel sends and receives asynchronous frames of
/// `bit_rate` bits a second at `clock_rate` clocks a second, within `tolerance` thousandths of the bit rate: exactly, |`clock_rate` - 16 ×
/// `bit_rate` × (N + 1)| × 1,000 is at most `tolerance` × 16 × `bit_rate` × (N + 1). The rates are 1 to
/// [`HIGHEST_RATE`], the tolerance 0 to [`HIGHEST_TOLERANCE`].
///
/// ```
/// use r6501q::{latch, Latch};
///
/// assert_eq!(latch(1_000_000, 2_400, 2).to_string(), "latch 25 (0019h)");
/// assert_eq!(latch(1_000_000, 9_600, 20).to_string(), "no latch value fits");
/// assert_eq!(latch(1_000_000, 9_600, 90), Latch::Fits(5)); // 6 fits too
/// assert_eq!(latch(1_000_000, 0, 20), Latch::Refused);
/// ```
#[inline]
pub fn latch(clock_rate: u32, bit_rate: u32, tolerance: u32) -> Latch {
    let host = library::latch(clock_rate, bit_rate, tolerance);
    match (number(host.number), host.found) {
        (Number::Done, 0) => Latch::Nothing,
        (Number::Done, _) => Latch::Fits(host.value),
        _ => Latch::Refused,
    }
}
