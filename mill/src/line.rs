//! The serial line: a path's bytes as inputs on PA7, frame by frame, at an exact bit rate.
use crate::input::Input;
use crate::units::{hundredths, rounded};
use r6501q::{Frame, Level, Pin};

/// How bytes are sent.
#[derive(Clone, Copy, Debug)]
pub struct Line {
    /// Clocks a second.
    pub rate: u32,
    /// Bits a second.
    pub baud: u32,
    /// Data bits and parity.
    pub frame: Frame,
    /// Stop bits.
    pub stops: u32,
    /// The clock of the first start bit.
    pub start: u64,
    /// Clocks from one start bit to the next; none: each frame right behind the last.
    pub every: Option<u64>,
}

impl Line {
    /// Bits of a frame.
    fn bits(&self) -> u64 {
        1 + u64::from(self.frame.data_bits) + u64::from(self.frame.parity.is_some()) + u64::from(self.stops)
    }

    /// So many bits in clocks, to the nearest: a bit need not be a whole number of clocks.
    fn clocks(&self, bits: u64) -> u64 {
        rounded(u128::from(bits) * u128::from(self.rate), u128::from(self.baud)) as u64
    }

    /// The clocks of a frame.
    pub fn frame_clocks(&self) -> u64 {
        self.clocks(self.bits())
    }

    /// The clock of a frame's bit. The last frame's stops end where the next one's would begin.
    fn at(&self, frame: u64, bit: u64) -> u64 {
        match self.every {
            Some(every) => self.start + frame * every + self.clocks(bit),
            None => self.start + self.clocks(frame * self.bits() + bit),
        }
    }

    /// The clock behind the last of so many frames.
    pub fn end(&self, frames: u64) -> Option<u64> {
        frames.checked_sub(1).map(|last| self.at(last, self.bits()))
    }

    /// A bit's clocks, with two decimals.
    pub fn bit_clocks(&self) -> String {
        hundredths(u128::from(self.rate), u128::from(self.baud))
    }

    /// The first byte that the data bits do not hold, with its place from 1 up.
    pub fn too_wide(&self, path: &[u8]) -> Option<(usize, u8)> {
        let wide = |byte: &u8| u32::from(*byte) >> self.frame.data_bits != 0;
        path.iter().position(wide).map(|place| (place + 1, path[place]))
    }

    /// The inputs that send a path, each a change of PA7, made as they are asked for.
    pub fn inputs<'a>(&'a self, path: &'a [u8]) -> impl Iterator<Item = Input> + 'a {
        let bits = (0u64..).zip(path).flat_map(move |(frame, byte)| {
            let levels = self.frame.levels(*byte).into_iter().take(self.bits() as usize - self.stops as usize + 1);
            (0u64..).zip(levels).map(move |(bit, level)| (self.at(frame, bit), level))
        });
        let mut last = Level::High;
        bits.filter_map(move |(clock, level)| {
            let changed = level != last;
            last = level;
            changed.then_some(Input { clock, pin: Pin::PA7, level })
        })
    }
}

#[cfg(test)]
mod tests {
    use super::*;
    use r6501q::Parity;

    fn line(baud: u32) -> Line {
        Line { rate: 1_000_000, baud, frame: Frame::EIGHT_BITS, stops: 2, start: 2_000, every: None }
    }

    fn clocks(line: &Line, path: &[u8]) -> Vec<u64> {
        line.inputs(path).map(|input| input.clock).collect()
    }

    #[test]
    fn bits_stand_at_the_nearest_clock_and_do_not_drift() {
        let line = line(9_600);
        assert_eq!(line.bit_clocks(), "104.17");
        assert_eq!(clocks(&line, &[0x55]), [2000, 2104, 2208, 2313, 2417, 2521, 2625, 2729, 2833, 2938]);
        // A thousand frames of 11 bits are 1,145,833.3 clocks, however they are rounded.
        assert_eq!(line.end(1_000), Some(2_000 + 1_145_833));
        assert_eq!(line.inputs(&[0; 1_000]).last().unwrap().clock, 2_000 + 1_145_625);
    }

    #[test]
    fn a_path_starts_low_and_ends_high() {
        let line = line(9_600);
        for byte in 0..=255 {
            let inputs: Vec<Input> = line.inputs(std::slice::from_ref(&byte)).collect();
            assert_eq!((inputs[0].clock, inputs[0].level), (2_000, Level::Low));
            assert_eq!(inputs.last().unwrap().level, Level::High);
            assert!(inputs.windows(2).all(|pair| pair[0].clock < pair[1].clock && pair[0].level != pair[1].level));
        }
    }

    #[test]
    fn stops_are_time_and_parity_is_a_bit() {
        let one = Line { stops: 1, ..line(62_500) };
        assert_eq!(clocks(&one, &[0xFF, 0xFF]), [2_000, 2_016, 2_160, 2_176]);
        let frame = Frame { data_bits: 7, parity: Some(Parity::Even) };
        let even = Line { frame, stops: 1, ..line(62_500) };
        assert_eq!(clocks(&even, b"A"), [2_000, 2_016, 2_032, 2_112, 2_128, 2_144]);
        let two = Line { frame, stops: 2, ..line(62_500) };
        assert_eq!((clocks(&two, b"A"), two.frame_clocks()), (clocks(&even, b"A"), 11 * 16));
    }

    #[test]
    fn frames_may_stand_apart() {
        let apart = Line { every: Some(1_000), ..line(62_500) };
        assert_eq!(clocks(&apart, &[0xFF, 0xFF]), [2_000, 2_016, 3_000, 3_016]);
        assert_eq!((apart.end(2), apart.end(0)), (Some(3_000 + 176), None));
    }

    #[test]
    fn bytes_that_do_not_fit_are_found() {
        let frame = Frame { data_bits: 7, parity: None };
        let line = Line { frame, ..line(9_600) };
        assert_eq!((line.too_wide(&[0x7F, 0x85]), line.too_wide(&[0x7F])), (Some((2, 0x85)), None));
    }
}
