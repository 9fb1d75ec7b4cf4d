//! The library's latch values for wanted bit rates, against a search over every latch value and against the table of
//! source document 001.
//!
//! `bit_rates number seed`. It ends with 1 at a difference, with 2 where an argument is wrong.

mod figures;
mod judge;
mod table;

use differential::random::Random;
use judge::Figures;
use r6501q::{latch, Latch};
use std::process::ExitCode;

fn asked(figures: Figures) -> Latch {
    latch(figures.clock_rate, figures.bit_rate, figures.tolerance)
}

/// How many answers of each kind, and how many wrong.
#[derive(Default)]
struct Counts {
    fits: u64,
    nothing: u64,
    refused: u64,
    wrong: u64,
}

impl Counts {
    fn count(&mut self, figures: Figures) {
        let answer = asked(figures);
        match answer {
            Latch::Fits(_) => self.fits += 1,
            Latch::Nothing => self.nothing += 1,
            Latch::Refused => self.refused += 1,
        }
        if answer != figures.answer() {
            println!("{figures:?}: {answer}, not {}", figures.answer());
            self.wrong += 1;
        }
    }
}

/// Wrong answers that must not pass for right: one more and one less than the only value that fits, the larger of two,
/// none where one fits, one where none does, and a refusal left out or made up. How many there are, and how many are
/// found.
fn altered() -> (usize, usize) {
    let only = Figures { clock_rate: 1_000_000, bit_rate: 2_400, tolerance: 2 };
    let two = Figures { clock_rate: 1_000_000, bit_rate: 9_600, tolerance: 90 };
    let none = Figures { clock_rate: 1_000_000, bit_rate: 9_600, tolerance: 20 };
    let refused = Figures { clock_rate: 1_000_000, bit_rate: 9_600, tolerance: 1_001 };
    let wrong = [
        (only, Latch::Fits(24)),
        (only, Latch::Fits(26)),
        (two, Latch::Fits(6)),
        (only, Latch::Nothing),
        (only, Latch::Refused),
        (none, Latch::Fits(6)),
        (none, Latch::Refused),
        (refused, Latch::Fits(6)),
        (refused, Latch::Nothing),
    ];
    (wrong.len(), wrong.iter().filter(|(figures, answer)| figures.answer() != *answer).count())
}

fn main() -> ExitCode {
    let arguments: Option<Vec<u64>> = std::env::args().skip(1).map(|word| word.parse().ok()).collect();
    let Some([number, seed]) = arguments.as_deref() else {
        eprintln!("usage: bit_rates number seed");
        return ExitCode::from(2);
    };
    let mut counts = Counts::default();
    for index in 0..*number {
        counts.count(figures::figures(&Random::new(*seed, index)));
    }
    let (alterations, found) = altered();
    let (rows, wrong_rows) = table::compare();
    println!(
        "{number} figures: {} latch values, {} times none, {} refused, {} wrong; {rows} rows of Table 6-1, {wrong_rows} \
         wrong; {found} of {alterations} wrong answers found",
        counts.fits, counts.nothing, counts.refused, counts.wrong
    );
    let each_kind = counts.fits > 0 && counts.nothing > 0 && counts.refused > 0;
    if counts.wrong == 0 && wrong_rows == 0 && found == alterations && each_kind {
        ExitCode::SUCCESS
    } else {
        ExitCode::FAILURE
    }
}
