//! Steps of an axis, read from records: an edge of the step pin is a step, up or down by the direction pin's level in
//! that record (document 02, U11). Before the first record all is driven high.
use crate::failure::Failure;
use crate::folder::Record;
use r6501q::{Level, Pin};

/// Which pins mean what.
#[derive(Clone, Copy, PartialEq, Eq, Debug)]
pub struct Axis {
    step: Pin,
    /// The level that an edge goes to.
    edge: Level,
    direction: Pin,
    /// The direction's level for up.
    up: Level,
}

/// A step: the clock of its record, and the position behind it.
#[derive(Clone, Copy, PartialEq, Eq, Debug)]
pub struct Step {
    pub clock: u64,
    pub position: i64,
}

/// The example's pins, as they are named.
pub const STEP: &str = "PA5:rise";
pub const DIRECTION: &str = "PC0:high";

impl Axis {
    /// By the step's pin with the level that an edge goes to, and the direction's pin with its level for up.
    pub fn of((step, edge): (Pin, Level), (direction, up): (Pin, Level)) -> Result<Axis, String> {
        if step == direction {
            return Err(format!("{step} is step and direction"));
        }
        Ok(Axis { step, edge, direction, up })
    }

    /// The example's.
    #[cfg(test)]
    pub fn example() -> Axis {
        edge(STEP).and_then(|step| Axis::of(step, direction(DIRECTION)?)).unwrap()
    }

    /// The steps of a list of records, from position 0.
    pub fn steps(
        self,
        records: impl Iterator<Item = Result<Record, Failure>>,
    ) -> impl Iterator<Item = Result<Step, Failure>> {
        let (mut last, mut position) = (Level::High, 0);
        records.filter_map(move |record| {
            let record = match record {
                Ok(record) => record,
                Err(failure) => return Some(Err(failure)),
            };
            let level = level(record.word, self.step);
            let edge = level != last && level == self.edge;
            last = level;
            if !edge {
                return None;
            }
            position += if self::level(record.word, self.direction) == self.up { 1 } else { -1 };
            Some(Ok(Step { clock: record.clock, position }))
        })
    }
}

/// What a word drives a port pin to.
pub fn level(word: u32, pin: Pin) -> Level {
    Level::from(word >> pin.number() & 1 == 1)
}

/// A pin that the chip drives.
pub fn port_pin(name: &str) -> Result<Pin, String> {
    match name.parse() {
        Ok(pin @ (Pin::NMI | Pin::RES)) => Err(format!("{pin} is not driven by the chip")),
        Ok(pin) => Ok(pin),
        Err(error) => Err(error.to_string()),
    }
}

/// `PIN:rise` or `PIN:fall`, a step's pin and the level that an edge goes to.
pub fn edge(text: &str) -> Result<(Pin, Level), String> {
    pin_and(text, ("rise", "fall"))
}

/// `PIN:high` or `PIN:low`, a direction's pin and its level for up.
pub fn direction(text: &str) -> Result<(Pin, Level), String> {
    pin_and(text, ("high", "low"))
}

/// A pin with one of two words behind it, high for the first; without one the first counts.
fn pin_and(text: &str, (high, low): (&str, &str)) -> Result<(Pin, Level), String> {
    let (name, word) = text.split_once(':').unwrap_or((text, high));
    let level = match word {
        _ if word == high => Level::High,
        _ if word == low => Level::Low,
        _ => return Err(format!("`{word}` is neither {high} nor {low}")),
    };
    Ok((port_pin(name)?, level))
}

#[cfg(test)]
mod tests {
    use super::*;

    fn steps(axis: Axis, words: &[(u64, u32)]) -> Vec<(u64, i64)> {
        let records = words.iter().map(|(clock, word)| Ok(Record { clock: *clock, word: *word }));
        axis.steps(records).map(|step| step.unwrap()).map(|step| (step.clock, step.position)).collect()
    }

    fn named(step: &str, up: &str) -> Result<Axis, String> {
        Axis::of(edge(step)?, direction(up)?)
    }

    const LOW: u32 = !(1 << 5); // PA5
    const DOWN: u32 = !(1 << 16); // PC0

    #[test]
    fn rises_are_steps_and_the_direction_is_that_records() {
        let all = u32::MAX;
        let words = [(10, LOW), (20, all), (30, LOW & DOWN), (35, LOW), (40, DOWN), (50, all), (60, LOW), (70, all)];
        assert_eq!(steps(Axis::example(), &words), [(20, 1), (40, 0), (70, 1)]);
        let falls = named("PA5:fall", "PC0:low").unwrap();
        assert_eq!(steps(falls, &words), [(10, -1), (30, 0), (60, -1)]);
    }

    #[test]
    fn before_the_first_record_all_is_high() {
        assert_eq!(steps(Axis::example(), &[(10, !1)]), []);
        assert_eq!(steps(Axis::example(), &[]), []);
    }

    #[test]
    fn pins_are_named_with_their_meaning() {
        assert_eq!(named("PA5", "PC0"), Ok(Axis::example()));
        for (step, direction) in [("PA5:up", "PC0"), ("RES", "PC0"), ("PE0", "PC0"), ("PA5", "PA5"), ("", "PC0")] {
            assert!(named(step, direction).is_err(), "{step} {direction}");
        }
    }
}
