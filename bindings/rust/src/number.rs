//! Why a call ended (document 01, "What is handed back"; document 02).
use std::error::Error;
use std::fmt;

/// Why a call ended. 1 to 5 are refusals: the state given comes back, nothing is read, counted or changed. So is 13,
/// which comes directly after 1 and before 2. 6, 7 and 12 are stops: all is as reached, and with 12 the clock of the
/// write is done. 8 to 10 are refused tapes: memory is unchanged. 11 is a refused latch call.
///
/// ```
/// use r6501q::Number;
///
/// assert_eq!(u8::from(Number::WrongPinList), 5);
/// assert_eq!(Number::try_from(6), Ok(Number::UndefinedOpcode));
/// assert!(Number::try_from(14).is_err());
/// assert_eq!(Number::NoFreeRecord.to_string(), "the next clock needs a record and none is free (7)");
/// ```
#[repr(u8)]
#[derive(Clone, Copy, PartialEq, Eq, PartialOrd, Ord, Hash, Debug)]
pub enum Number {
    /// All clocks done, or the tape loaded.
    Done = 0,
    /// Memory is not 65,536 bytes.
    WrongMemoryLength = 1,
    /// A field of the state is out of its range, or a byte waits with wait 0.
    StateNotWellFormed = 2,
    /// Paired lists differ in length.
    UnequalLists = 3,
    /// Clock + n is above 4,294,967,295.
    ClockTooHigh = 4,
    /// The input list breaks its rule somewhere.
    WrongPinList = 5,
    /// The next clock would start an undefined opcode.
    UndefinedOpcode = 6,
    /// The next clock needs an output record and none is free.
    NoFreeRecord = 7,
    /// A tape record is malformed.
    MalformedRecord = 8,
    /// A tape record's check sum is wrong.
    WrongCheckSum = 9,
    /// The tape's last record is missing, or its count is wrong.
    WrongLastRecord = 10,
    /// A rate is 0, or a rate or the tolerance is above its limit.
    RateOutOfLimits = 11,
    /// Halted after the clock of a write at the halt address: that clock is done and recorded.
    HaltedAtWrite = 12,
    /// A page list is not of 256 sums. Refused like 1 and directly after it.
    WrongSumsLength = 13,
}

impl Number {
    /// Every number, in order.
    pub const ALL: [Number; 14] = [
        Number::Done,
        Number::WrongMemoryLength,
        Number::StateNotWellFormed,
        Number::UnequalLists,
        Number::ClockTooHigh,
        Number::WrongPinList,
        Number::UndefinedOpcode,
        Number::NoFreeRecord,
        Number::MalformedRecord,
        Number::WrongCheckSum,
        Number::WrongLastRecord,
        Number::RateOutOfLimits,
        Number::HaltedAtWrite,
        Number::WrongSumsLength,
    ];

    /// `Ok` for [`Number::Done`], the number itself as an error for every other.
    ///
    /// ```
    /// use r6501q::{load, Number, MEMORY_LENGTH};
    ///
    /// fn memory_with(tape: &[u8]) -> Result<Vec<u8>, Number> {
    ///     let mut memory = vec![0; MEMORY_LENGTH];
    ///     load(tape, &mut memory).number.done()?;
    ///     Ok(memory)
    /// }
    /// assert!(memory_with(b";0000010001").is_ok());
    /// assert_eq!(memory_with(b""), Err(Number::WrongLastRecord));
    /// ```
    #[inline]
    pub fn done(self) -> Result<(), Number> {
        match self {
            Number::Done => Ok(()),
            other => Err(other),
        }
    }

    // What it says, without the number itself.
    fn message(self) -> &'static str {
        match self {
            Number::Done => "done",
            Number::WrongMemoryLength => "memory is not 65,536 bytes",
            Number::StateNotWellFormed => "the state is not well-formed",
            Number::UnequalLists => "paired lists are of unequal length",
            Number::ClockTooHigh => "clock + n is above 4,294,967,295",
            Number::WrongPinList => "the pin list breaks its rule",
            Number::UndefinedOpcode => "the next clock would start an undefined opcode",
            Number::NoFreeRecord => "the next clock needs a record and none is free",
            Number::MalformedRecord => "a tape record is malformed",
            Number::WrongCheckSum => "a tape record's check sum is wrong",
            Number::WrongLastRecord => "the tape's last record is missing, or its count is wrong",
            Number::RateOutOfLimits => "a rate is 0, or a rate or the tolerance is above its limit",
            Number::HaltedAtWrite => "the last clock wrote at the halt address",
            Number::WrongSumsLength => "the page list is not of 256 sums",
        }
    }
}

impl fmt::Display for Number {
    fn fmt(&self, f: &mut fmt::Formatter<'_>) -> fmt::Result {
        write!(f, "{} ({})", self.message(), u8::from(*self))
    }
}

impl Error for Number {}

impl From<Number> for u8 {
    #[inline]
    fn from(number: Number) -> u8 {
        number as u8
    }
}

impl TryFrom<u8> for Number {
    type Error = NotANumber;

    #[inline]
    fn try_from(byte: u8) -> Result<Number, NotANumber> {
        Number::ALL.get(usize::from(byte)).copied().ok_or(NotANumber(byte))
    }
}

/// A byte above 13, which no call gives.
#[derive(Clone, Copy, PartialEq, Eq, Debug)]
pub struct NotANumber(
    /// The byte.
    pub u8,
);

impl fmt::Display for NotANumber {
    fn fmt(&self, f: &mut fmt::Formatter<'_>) -> fmt::Result {
        write!(f, "{} is above 13, the highest number that a call gives", self.0)
    }
}

impl Error for NotANumber {}

#[cfg(test)]
mod tests {
    use super::*;

    #[test]
    fn bytes_and_numbers_are_inverse() {
        for byte in 0..=u8::MAX {
            match Number::try_from(byte) {
                Ok(number) => assert_eq!(u8::from(number), byte),
                Err(NotANumber(other)) => assert_eq!((other, byte > 13), (byte, true)),
            }
        }
    }

    #[test]
    fn every_message_ends_with_its_number() {
        for (byte, number) in Number::ALL.iter().enumerate() {
            assert!(number.to_string().ends_with(&format!(" ({byte})")));
        }
    }
}
