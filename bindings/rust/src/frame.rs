//! Characters on a serial line (document 01, "Serial channel").
use crate::Level;

/// A parity bit: over the data bits, so that ones are even or odd in number with it.
#[derive(Clone, Copy, PartialEq, Eq, Debug)]
pub enum Parity {
    /// SCCR1 and SCCR0 set.
    Even,
    /// SCCR1 set, SCCR0 clear.
    Odd,
}

/// What a frame looks like: start, data lowest bit first, parity, stops. Two stops without parity, one with it.
///
/// ```
/// use r6501q::{Frame, Level::{High, Low}, Parity};
///
/// let frame = Frame { data_bits: 5, parity: Some(Parity::Odd) };
/// assert_eq!(frame.levels(0b00110), [Low, Low, High, High, Low, Low, High, High]);
/// assert_eq!((frame.sccr(), Frame::EIGHT_BITS.sccr()), (0x0E, 0x00));
/// ```
#[derive(Clone, Copy, PartialEq, Eq, Debug)]
pub struct Frame {
    /// 5 to 8; what is above or below counts as 8 or 5.
    pub data_bits: u8,
    /// None: no parity bit.
    pub parity: Option<Parity>,
}

impl Frame {
    /// 8 data bits, no parity: what the chip has with SCCR0 to SCCR3 clear.
    pub const EIGHT_BITS: Frame = Frame { data_bits: 8, parity: None };

    /// The levels of a byte's frame, each a bit long. Data bits that the frame has no place for are dropped.
    #[must_use]
    pub fn levels(self, byte: u8) -> Vec<Level> {
        let data_bits = self.data_bits.clamp(5, 8);
        let data: Vec<bool> = (0..data_bits).map(|bit| byte >> bit & 1 == 1).collect();
        let odd = data.iter().filter(|bit| **bit).count() % 2 == 1;
        let rest: &[bool] = match self.parity {
            None => &[true, true],
            Some(parity) => &[odd == (parity == Parity::Even), true],
        };
        let bits = [false].iter().chain(&data).chain(rest);
        bits.map(|bit| Level::from(*bit)).collect()
    }

    /// SCCR's bits 0 to 3 for this frame.
    #[must_use]
    pub fn sccr(self) -> u8 {
        let parity = match self.parity {
            None => 0,
            Some(Parity::Odd) => 0b10,
            Some(Parity::Even) => 0b11,
        };
        (8 - self.data_bits.clamp(5, 8)) << 2 | parity
    }
}
