//! Inputs: on this clock this pin gets this level. Clocks have 64 bits here.
use crate::rows::{fields, Rows};
use crate::units::{grouped, HIGHEST_TIME};
use csv::StringRecord;
use r6501q::{Level, Pin};

/// An input.
#[derive(Clone, Copy, PartialEq, Eq, Debug)]
pub struct Input {
    pub clock: u64,
    pub pin: Pin,
    pub level: Level,
}

impl Input {
    /// What an input list is in order of: clocks never fall, and within a clock pins rise strictly.
    pub fn place(&self) -> (u64, Pin) {
        (self.clock, self.pin)
    }

    /// The fields of its row.
    pub fn fields(&self) -> [String; 3] {
        [self.clock.to_string(), self.pin.to_string(), u8::from(self.level == Level::High).to_string()]
    }
}

/// The first row of an input list.
pub const HEADING: [&str; 3] = ["clock", "pin", "level"];

/// The inputs of a text, a line each: `clock,pin,level`. A first line of these words, and empty lines, are skipped, and
/// so is a byte order mark at the start. Where there is a line, its pin is not the text's. What is wrong is said with
/// its line and number, as `LINE: what (5)`.
pub fn list_beside(line_pin: Option<Pin>, text: &str) -> Result<Vec<Input>, String> {
    let mut inputs: Vec<Input> = Vec::new();
    let mut rows = Rows::quoted(text.as_bytes());
    while let Some((number, row)) = rows.next().map_err(|error| error.to_string())? {
        if number == 1 && fields(row, &HEADING) == Ok(HEADING) {
            continue;
        }
        let checked = parsed(row).and_then(|input| in_order(inputs.last(), input));
        let checked = checked.and_then(|input| free(line_pin, input));
        inputs.push(checked.map_err(|words| format!("{number}: {words} (5)"))?);
    }
    Ok(inputs)
}

/// The inputs of a text, without a line beside them.
#[cfg(test)]
pub fn list(text: &str) -> Result<Vec<Input>, String> {
    list_beside(None, text)
}

/// An input of another pin than the line's.
fn free(line_pin: Option<Pin>, input: Input) -> Result<Input, String> {
    match line_pin {
        Some(pin) if pin == input.pin => Err(format!("{pin} is the line's while a path is sent")),
        _ => Ok(input),
    }
}

/// An input as a row has it.
pub fn parsed(row: &StringRecord) -> Result<Input, String> {
    let [clock, pin, level] = fields(row, &HEADING)?;
    let number = clock.parse().ok().filter(|number| *number <= HIGHEST_TIME);
    let clock = number.ok_or_else(|| format!("`{clock}` is no clock"))?;
    let pin = pin.parse().map_err(|error| format!("{error}"))?;
    let level = match level {
        "0" => Level::Low,
        "1" => Level::High,
        _ => return Err(format!("`{level}` is no level, 0 or 1")),
    };
    Ok(Input { clock, pin, level })
}

/// The rule of an input list (document 01, "Pin lists"), for an input behind another one or the first.
pub fn in_order(last: Option<&Input>, input: Input) -> Result<Input, String> {
    let Input { clock, pin, .. } = input;
    match last {
        _ if clock == 0 => Err("clock 0 is not above the start's, 0".to_string()),
        Some(last) if clock < last.clock => Err(format!(
            "clock {} comes before {}, the last one's: clocks never fall",
            grouped(clock),
            grouped(last.clock)
        )),
        Some(last) if input.place() <= last.place() => {
            let clock = grouped(clock);
            Err(format!("{pin} does not come behind {} on clock {clock}: within a clock pins rise", last.pin))
        }
        _ => Ok(input),
    }
}

#[cfg(test)]
mod tests {
    use super::*;

    #[test]
    fn a_list_is_read_and_written_alike() {
        let text = "clock,pin,level\n5,PA7,0\n5,RES,1\n\n 7200000000 , PD0 , 1 \n";
        let inputs = list(text).unwrap();
        let lines: Vec<String> = inputs.iter().map(|input| input.fields().join(",")).collect();
        assert_eq!(lines, ["5,PA7,0", "5,RES,1", "7200000000,PD0,1"]);
        assert_eq!((list(""), list("clock,pin,level")), (Ok(vec![]), Ok(vec![])));
    }

    #[test]
    fn a_byte_order_mark_is_skipped_at_the_start_alone() {
        for text in ["\u{FEFF}clock,pin,level\n5,PB0,0\n", "\u{FEFF}5,PB0,0", "\u{FEFF}\n5,PB0,0"] {
            assert_eq!(list(text), list("5,PB0,0"), "{text}");
        }
        assert_eq!(list("\u{FEFF}"), Ok(vec![]));
        assert!(list("5,PB0,0\n\u{FEFF}6,PB0,1").unwrap_err().starts_with("2: "));
        assert!(list("\u{FEFF}\u{FEFF}5,PB0,0").unwrap_err().starts_with("1: "));
        assert_eq!(list("\u{FEFF}clock,pin,level\n5,PB0,2").unwrap_err(), "2: `2` is no level, 0 or 1 (5)");
    }

    #[test]
    fn the_lines_pin_is_refused_beside_a_path() {
        let text = "clock,pin,level\n5,PB0,0\n\n6,PA7,0\n";
        let words = "4: PA7 is the line's while a path is sent (5)";
        assert_eq!(list_beside(Some(Pin::PA7), text), Err(words.to_string()));
        assert_eq!(list_beside(None, text), list(text));
        assert!(list(text).is_ok());
    }

    #[test]
    fn what_breaks_the_rule_is_said_with_its_line() {
        let refused = |text: &str| list(text).unwrap_err();
        assert_eq!(refused("5,PA7,0\n4,PA7,1"), "2: clock 4 comes before 5, the last one's: clocks never fall (5)");
        let twice = "2: PA7 does not come behind PA7 on clock 1,000: within a clock pins rise (5)";
        assert_eq!(refused("1000,PA7,0\n1000,PA7,1"), twice);
        assert_eq!(refused("0,PA7,0"), "1: clock 0 is not above the start's, 0 (5)");
        assert!(refused("5,PE7,0").starts_with("1: `PE7` is no pin"));
        assert_eq!(refused("5,PA7,2"), "1: `2` is no level, 0 or 1 (5)");
        assert_eq!(refused("5,PA7"), "1: `5,PA7` is not clock,pin,level (5)");
        assert_eq!(refused("-5,PA7,0"), "1: `-5` is no clock (5)");
        assert_eq!(refused("18446744073709551615,PA7,0"), "1: `18446744073709551615` is no clock (5)");
        assert_eq!(refused("\nclock,pin,level"), "2: `clock` is no clock (5)");
    }
}
