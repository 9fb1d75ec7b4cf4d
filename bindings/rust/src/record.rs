//! Output records.
use crate::{Level, Pin};

/// A change of the driven word: the clock after which it differs, and the word.
#[derive(Clone, Copy, PartialEq, Eq, Debug)]
pub struct Record {
    /// The clock.
    pub clock: u32,
    /// The driven word: PA0 in bit 0, PD7 in bit 31.
    pub word: u32,
}

impl Record {
    /// Ports A to D as bytes.
    ///
    /// ```
    /// let record = r6501q::Record { clock: 10, word: 0xDDCC_BBAA };
    /// assert_eq!(record.ports(), [0xAA, 0xBB, 0xCC, 0xDD]);
    /// ```
    #[must_use]
    pub fn ports(self) -> [u8; 4] {
        self.word.to_le_bytes()
    }

    /// What the chip drives a port pin to; none for NMI and RES, which it does not drive.
    ///
    /// ```
    /// use r6501q::{Level, Pin, Record};
    ///
    /// let record = Record { clock: 10, word: 0xFFFF_FFDF };
    /// assert_eq!((record.level(Pin::PA5), record.level(Pin::PC0)), (Some(Level::Low), Some(Level::High)));
    /// assert_eq!(record.level(Pin::RES), None);
    /// ```
    #[must_use]
    pub fn level(self, pin: Pin) -> Option<Level> {
        let bit = 1u32.checked_shl(u32::from(pin.number()))?;
        Some(Level::from(self.word & bit != 0))
    }
}
