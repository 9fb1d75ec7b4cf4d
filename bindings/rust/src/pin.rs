//! Pins by their names, and levels.
use crate::code;
use std::error::Error;
use std::fmt;
use std::str::FromStr;

/// The level of a pin.
#[derive(Clone, Copy, PartialEq, Eq, PartialOrd, Ord, Hash, Debug)]
pub enum Level {
    /// 0.
    Low,
    /// 1.
    High,
}

impl From<bool> for Level {
    fn from(high: bool) -> Level {
        if high {
            Level::High
        } else {
            Level::Low
        }
    }
}

/// A pin whose level an input sets: PA0 to PD7, NMI or RES.
///
/// ```
/// use r6501q::{Level, Pin};
///
/// assert_eq!("PA7".parse(), Ok(Pin::PA7));
/// assert_eq!(Pin::PC0.to_string(), "PC0");
/// assert_eq!((Pin::PD7.number(), Pin::RES.number()), (31, 33));
/// assert_eq!(Pin::PA7.code(Level::High), 71);
/// assert!("PE0".parse::<Pin>().is_err());
/// ```
#[derive(Clone, Copy, PartialEq, Eq, PartialOrd, Ord, Hash, Debug)]
pub struct Pin(u8);

macro_rules! pins {
    ($($name:ident = $number:expr),* $(,)?) => {
        impl Pin {
            $(
                #[doc = concat!("Pin ", stringify!($number), " of an input code.")]
                pub const $name: Pin = Pin($number);
            )*
        }
        // By number.
        const NAMES: [&str; 34] = [$(stringify!($name)),*];
    };
}

#[rustfmt::skip]
pins!(
    PA0 = 0, PA1 = 1, PA2 = 2, PA3 = 3, PA4 = 4, PA5 = 5, PA6 = 6, PA7 = 7,
    PB0 = 8, PB1 = 9, PB2 = 10, PB3 = 11, PB4 = 12, PB5 = 13, PB6 = 14, PB7 = 15,
    PC0 = 16, PC1 = 17, PC2 = 18, PC3 = 19, PC4 = 20, PC5 = 21, PC6 = 22, PC7 = 23,
    PD0 = 24, PD1 = 25, PD2 = 26, PD3 = 27, PD4 = 28, PD5 = 29, PD6 = 30, PD7 = 31,
    NMI = 32, RES = 33,
);

impl Pin {
    /// 0 to 31 for PA0 to PD7, 32 NMI, 33 RES.
    #[must_use]
    pub const fn number(self) -> u8 {
        self.0
    }

    /// The input code that sets the pin to a level.
    #[must_use]
    pub const fn code(self, level: Level) -> u8 {
        code(self.0, matches!(level, Level::High))
    }
}

impl fmt::Display for Pin {
    fn fmt(&self, f: &mut fmt::Formatter<'_>) -> fmt::Result {
        f.pad(NAMES[usize::from(self.0)])
    }
}

impl FromStr for Pin {
    type Err = NotAPin;

    fn from_str(name: &str) -> Result<Pin, NotAPin> {
        match NAMES.iter().position(|known| *known == name) {
            Some(number) => Ok(Pin(number as u8)),
            None => Err(NotAPin(name.to_string())),
        }
    }
}

/// A name that no pin has.
#[derive(Clone, PartialEq, Eq, Debug)]
pub struct NotAPin(
    /// The name.
    pub String,
);

impl fmt::Display for NotAPin {
    fn fmt(&self, f: &mut fmt::Formatter<'_>) -> fmt::Result {
        write!(f, "`{}` is no pin: they are PA0 to PA7, PB0 to PD7, NMI and RES", self.0)
    }
}

impl Error for NotAPin {}

#[cfg(test)]
mod tests {
    use super::*;
    use crate::{PIN_NMI, PIN_RES};

    #[test]
    fn names_and_numbers_are_inverse() {
        for number in 0..34 {
            let pin = Pin(number);
            assert_eq!(pin.to_string().parse(), Ok(pin));
            assert_eq!((pin.code(Level::Low), pin.code(Level::High)), (number, number + 64));
        }
        assert_eq!((Pin::NMI.number(), Pin::RES.number()), (PIN_NMI, PIN_RES));
    }
}
