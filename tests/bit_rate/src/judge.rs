//! Document 02, U2 and U9, read as they stand: what an answer must be, by a search over every latch value.
use r6501q::Latch;

/// A clock rate, a bit rate and a tolerance in thousandths.
#[derive(Clone, Copy, PartialEq, Eq, Debug)]
pub struct Figures {
    pub clock_rate: u32,
    pub bit_rate: u32,
    pub tolerance: u32,
}

impl Figures {
    /// "f or b is 0, or a figure is above its limit".
    pub fn refused(self) -> bool {
        let rate = |rate: u32| (1..=10_000_000).contains(&rate);
        !rate(self.clock_rate) || !rate(self.bit_rate) || self.tolerance > 1_000
    }

    /// "|f - 16 × b × (N + 1)| × 1,000 at most t × 16 × b × (N + 1)".
    pub fn fits(self, value: u16) -> bool {
        let [f, b, t] = [self.clock_rate, self.bit_rate, self.tolerance].map(u64::from);
        let clocks = 16 * b * (u64::from(value) + 1);
        f.abs_diff(clocks) * 1_000 <= t * clocks
    }

    /// Every latch value that fits, lowest first.
    pub fn fitting(self) -> impl Iterator<Item = u16> {
        (0..=u16::MAX).filter(move |value| self.fits(*value))
    }

    /// The one right answer: "the smallest N that fits", none, or 11 before any search.
    pub fn answer(self) -> Latch {
        if self.refused() {
            return Latch::Refused;
        }
        self.fitting().next().map_or(Latch::Nothing, Latch::Fits)
    }
}
