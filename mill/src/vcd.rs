//! Wave forms: the levels of pins as a value change dump (IEEE 1364), records and inputs merged.
use crate::failure::Failure;
use crate::files::Failed;
use crate::folder::Record;
use crate::input::Input;
use crate::steps::level;
use crate::units::rounded;
use r6501q::{Level, Pin, State};
use std::io::{self, Write};
use std::iter::Peekable;

/// Powers of ten of a second, and their names.
const UNITS: [(u32, &str); 10] = [
    (0, "1 s"),
    (1, "100 ms"),
    (2, "10 ms"),
    (3, "1 ms"),
    (4, "100 us"),
    (5, "10 us"),
    (6, "1 us"),
    (7, "100 ns"),
    (8, "10 ns"),
    (9, "1 ns"),
];

/// The unit of times: the longest of which a clock is a whole number; where there is none, a nanosecond.
fn unit(rate: u32) -> (u128, &'static str) {
    let whole = UNITS.iter().find(|(power, _)| 10u128.pow(*power) % u128::from(rate) == 0);
    let (power, name) = whole.unwrap_or(&UNITS[UNITS.len() - 1]);
    (10u128.pow(*power), name)
}

/// The levels of all pins as the world sees them: a port pin is high where drive and input are.
struct Levels {
    word: u32,
    external: u32,
    nmi: Level,
    res: Level,
}

impl Levels {
    fn fresh() -> Levels {
        let external = State::fresh().external;
        let flag = |value: u8| Level::from(value != 0);
        Levels { word: u32::MAX, external: external.ports, nmi: flag(external.nmi), res: flag(external.res) }
    }

    fn of(&self, pin: Pin) -> Level {
        match pin {
            Pin::NMI => self.nmi,
            Pin::RES => self.res,
            port => level(self.word & self.external, port),
        }
    }

    fn set(&mut self, change: Change) {
        match change {
            Change::Drive(record) => self.word = record.word,
            Change::External(Input { pin: Pin::NMI, level, .. }) => self.nmi = level,
            Change::External(Input { pin: Pin::RES, level, .. }) => self.res = level,
            Change::External(Input { pin, level: Level::High, .. }) => self.external |= 1 << pin.number(),
            Change::External(Input { pin, level: Level::Low, .. }) => self.external &= !(1 << pin.number()),
        }
    }
}

#[derive(Clone, Copy)]
enum Change {
    Drive(Record),
    External(Input),
}

/// Records and inputs by their clocks.
struct Changes<R: Iterator<Item = Result<Record, Failure>>, I: Iterator<Item = Result<Input, Failure>>> {
    records: Peekable<R>,
    inputs: Peekable<I>,
}

impl<R: Iterator<Item = Result<Record, Failure>>, I: Iterator<Item = Result<Input, Failure>>> Changes<R, I> {
    fn next(&mut self) -> Result<Option<(u64, Change)>, Failure> {
        let input_first = match (self.records.peek(), self.inputs.peek()) {
            (Some(Ok(record)), Some(Ok(input))) => input.clock <= record.clock,
            (record, _) => record.is_none(),
        };
        if input_first {
            let input = self.inputs.next().transpose()?;
            return Ok(input.map(|input| (input.clock, Change::External(input))));
        }
        let record = self.records.next().transpose()?;
        Ok(record.map(|record| (record.clock, Change::Drive(record))))
    }
}

/// What a pin is called in a dump's lines: printable characters from `!` on.
fn mark(place: usize) -> char {
    char::from(b'!' + place as u8)
}

/// Writes a dump of some pins to a last clock, or to the last change where that is behind it.
pub fn write(
    out: &mut dyn Write,
    pins: &[Pin],
    rate: u32,
    last_clock: u64,
    records: impl Iterator<Item = Result<Record, Failure>>,
    inputs: impl Iterator<Item = Result<Input, Failure>>,
) -> Result<(), Failed> {
    let (units, name) = unit(rate);
    let time = |clock: u64| rounded(u128::from(clock) * units, u128::from(rate));
    let mut levels = Levels::fresh();
    let mut shown: Vec<Level> = pins.iter().map(|pin| levels.of(*pin)).collect();
    head(out, pins, name, rate, &shown)?;
    let mut changes = Changes { records: records.peekable(), inputs: inputs.peekable() };
    let mut next = changes.next()?;
    let mut end = last_clock;
    while let Some((clock, _)) = next {
        end = end.max(clock); // a run that is not complete may have more than is known of it
        while let Some((_, change)) = next.filter(|(other, _)| *other == clock) {
            levels.set(change);
            next = changes.next()?;
        }
        show(out, pins, &levels, &mut shown, time(clock))?;
    }
    writeln!(out, "#{}", time(end))?;
    Ok(())
}

fn head(out: &mut dyn Write, pins: &[Pin], unit: &str, rate: u32, levels: &[Level]) -> io::Result<()> {
    writeln!(out, "$comment {rate} clocks a second $end\n$timescale {unit} $end\n$scope module r6501q $end")?;
    for (place, pin) in pins.iter().enumerate() {
        writeln!(out, "$var wire 1 {} {pin} $end", mark(place))?;
    }
    writeln!(out, "$upscope $end\n$enddefinitions $end\n#0\n$dumpvars")?;
    for (place, level) in levels.iter().enumerate() {
        writeln!(out, "{}{}", u8::from(*level == Level::High), mark(place))?;
    }
    writeln!(out, "$end")
}

/// The pins whose level is another than was shown.
fn show(out: &mut dyn Write, pins: &[Pin], levels: &Levels, shown: &mut [Level], time: u128) -> io::Result<()> {
    let mut headed = false;
    for (place, (pin, last)) in pins.iter().zip(shown).enumerate() {
        let level = levels.of(*pin);
        if level == *last {
            continue;
        }
        if !headed {
            writeln!(out, "#{time}")?;
            headed = true;
        }
        *last = level;
        writeln!(out, "{}{}", u8::from(level == Level::High), mark(place))?;
    }
    Ok(())
}

/// The pins that records or inputs change, in order.
pub fn changing(
    records: impl Iterator<Item = Result<Record, Failure>>,
    inputs: impl Iterator<Item = Result<Input, Failure>>,
) -> Result<Vec<Pin>, Failure> {
    let mut numbers = 0u64;
    let mut last = u32::MAX;
    for record in records {
        let word = record?.word;
        numbers |= u64::from(word ^ last);
        last = word;
    }
    for input in inputs {
        numbers |= 1 << input?.pin.number();
    }
    Ok(every_pin().filter(|pin| numbers >> pin.number() & 1 == 1).collect())
}

/// PA0 to PD7, NMI, RES.
fn every_pin() -> impl Iterator<Item = Pin> {
    let ports = "ABCD".chars().flat_map(|port| (0..8).map(move |bit| format!("P{port}{bit}")));
    ports.chain(["NMI".to_string(), "RES".to_string()]).filter_map(|name| name.parse().ok())
}

#[cfg(test)]
mod tests {
    use super::*;
    use crate::input::list;

    fn dump(pins: &[Pin], rate: u32, inputs: &str) -> String {
        let records = [(10, 0xFFFF_FF5F), (20, 0xFFFF_FFFF)].map(|(clock, word)| Ok(Record { clock, word }));
        let inputs = list(inputs).unwrap().into_iter().map(Ok);
        let mut out = Vec::new();
        write(&mut out, pins, rate, 30, records.into_iter(), inputs).unwrap();
        String::from_utf8(out).unwrap()
    }

    #[test]
    fn a_pin_is_low_where_drive_or_input_is() {
        let text = dump(&[Pin::PA5, Pin::PA7], 1_000_000, "5,PA7,0\n15,PA7,1\n");
        let body = text.split_once("$end\n#0\n").unwrap().1;
        assert_eq!(body, "$dumpvars\n1!\n1\"\n$end\n#5\n0\"\n#10\n0!\n#20\n1!\n1\"\n#30\n");
        assert!(text.contains("$timescale 1 us $end\n") && text.contains("$var wire 1 \" PA7 $end\n"));
    }

    #[test]
    fn the_timescale_is_the_clocks() {
        assert_eq!([unit(1_000_000).1, unit(2_000_000).1, unit(1).1], ["1 us", "100 ns", "1 s"]);
        assert_eq!([unit(1_843_200).1, unit(1_075_200).1, unit(8_000_000).1], ["1 ns", "1 ns", "1 ns"]);
        assert!(dump(&[Pin::PA5], 2_000_000, "").contains("\n#50\n0!\n#100\n1!\n#150\n"));
        assert!(dump(&[Pin::PA5], 1_843_200, "").contains("\n#5425\n0!\n"));
    }

    #[test]
    fn pins_that_change_are_found() {
        let records = [Ok(Record { clock: 1, word: 0x7FFF_FFFE })];
        let inputs = list("5,PA7,0\n5,RES,0").unwrap().into_iter().map(Ok);
        assert_eq!(changing(records.into_iter(), inputs), Ok(vec![Pin::PA0, Pin::PA7, Pin::PD7, Pin::RES]));
        assert_eq!(every_pin().count(), 34);
    }
}
