//! Why a command ends without its work done, and the exit code of each cause.
use thiserror::Error;

/// A cause with its words: place first, then what was found.
#[derive(Clone, PartialEq, Eq, Debug, Error)]
pub enum Failure {
    /// A wrong command line.
    #[error("{0}")]
    Usage(String),
    /// A file that cannot be read or written, or that holds something else than it should.
    #[error("{0}")]
    File(String),
    /// A tape that the loader refuses: 8, 9 or 10.
    #[error("{0}")]
    Tape(String),
    /// An input list that breaks its rule: 5.
    #[error("{0}")]
    Inputs(String),
    /// A run that an undefined opcode stopped: 6.
    #[error("{0}")]
    Opcode(String),
    /// The line and the chip's receiver do not fit together, under `--strict`.
    #[error("{0}")]
    Line(String),
    /// A signal ended the run; what was done is there.
    #[error("{0}")]
    Interrupted(String),
}

impl Failure {
    /// The exit code: 0 is done or alike, 1 differs.
    pub fn code(&self) -> u8 {
        match self {
            Failure::Usage(_) => 2,
            Failure::File(_) => 3,
            Failure::Tape(_) => 4,
            Failure::Inputs(_) => 5,
            Failure::Opcode(_) => 6,
            Failure::Line(_) => 7,
            Failure::Interrupted(_) => 130,
        }
    }
}

/// How a command that did its work ends.
#[derive(Clone, Copy, PartialEq, Eq, Debug)]
pub enum Verdict {
    /// Done, or alike.
    Done,
    /// What was compared differs, or nothing fits what was asked for.
    Differs,
}

impl Verdict {
    /// The exit code.
    pub fn code(self) -> u8 {
        match self {
            Verdict::Done => 0,
            Verdict::Differs => 1,
        }
    }
}

#[cfg(test)]
mod tests {
    use super::*;

    #[test]
    fn exit_codes_are_those_of_the_page() {
        let causes: [fn(String) -> Failure; 6] =
            [Failure::Usage, Failure::File, Failure::Tape, Failure::Inputs, Failure::Opcode, Failure::Line];
        let codes = causes.map(|cause| cause(String::new()).code());
        assert_eq!((Verdict::Done.code(), Verdict::Differs.code(), codes), (0, 1, [2, 3, 4, 5, 6, 7]));
        assert_eq!(Failure::File("a: gone".into()).to_string(), "a: gone");
    }
}
