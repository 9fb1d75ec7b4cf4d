//! What a run is to do, from the command line.
use crate::commands::clocks;
use crate::commands::run::{Arguments, ParityBit};
use crate::failure::Failure;
use crate::files::{bytes, failed};
use crate::input::{list_beside, Input};
use crate::line::Line;
use crate::session::Sizes;
use crate::tape::loaded;
use crate::units::{grouped, HIGHEST_TIME};
use r6501q::{Frame, Level, Parity, Pin};
use serde_json::{json, Value};
use sha2::{Digest, Sha256};
use std::path::Path;

/// A file that goes into a run.
pub struct Source {
    pub name: String,
    pub bytes: Vec<u8>,
}

impl Source {
    fn read(name: &str) -> Result<Source, Failure> {
        Ok(Source { name: name.to_string(), bytes: bytes(Path::new(name))? })
    }

    /// Its name, length and digest.
    pub fn json(&self) -> Value {
        let digest = format!("{:x}", Sha256::digest(&self.bytes));
        json!({ "file": self.name, "bytes": self.bytes.len(), "sha256": digest })
    }
}

/// What a run is to do.
pub struct Plan {
    pub tape: Source,
    pub memory: Vec<u8>,
    pub path: Option<Source>,
    pub pins: Option<Source>,
    /// RES high on clock 1, and what the pin list has.
    pub inputs: Vec<Input>,
    pub rate: u32,
    pub line: Option<Line>,
    pub tail: u64,
    pub length: Option<u64>,
    /// The clock behind the path's last frame.
    pub path_end: Option<u64>,
    /// The last clock: as asked for, or the tail behind path and inputs.
    pub end: u64,
    pub strict: bool,
    pub sizes: Sizes,
}

impl Plan {
    /// The plan that a command line gives, with its files read and checked.
    pub fn read(arguments: &Arguments) -> Result<Plan, Failure> {
        let rate = arguments.clock;
        let tail = clocks("--tail", arguments.tail, rate)?.unwrap_or(milliseconds(200, rate));
        let length = clocks("--for", arguments.length, rate)?;
        let path = arguments.path.as_deref().map(Source::read).transpose()?;
        let line = path.as_ref().zip(arguments.baud).map(|(path, baud)| line(arguments, baud, path)).transpose()?;
        let tape = Source::read(&arguments.tape)?;
        let memory = loaded(&tape.name, &tape.bytes)?;
        let pins = arguments.inputs.as_deref().map(Source::read).transpose()?;
        let inputs = inputs(pins.as_ref(), line.is_some())?;
        let path_end = path.as_ref().zip(line).and_then(|(path, line)| line.end(path.bytes.len() as u64));
        let last_input = pins.as_ref().and_then(|_| inputs.last()).map(|input| input.clock);
        let behind = path_end.max(last_input).map(|last| last + tail);
        let missing = || Failure::Usage("--for is missing: neither a path nor an input gives an end".to_string());
        let end = length.or(behind).ok_or_else(missing)?;
        let &Arguments { strict, piece, space, set_back, .. } = arguments;
        let sizes = Sizes { piece, space, set_back };
        Ok(Plan { tape, memory, path, pins, inputs, rate, line, tail, length, path_end, end, strict, sizes })
    }

    /// The path's bytes.
    pub fn bytes(&self) -> &[u8] {
        self.path.as_ref().map_or(&[], |path| &path.bytes)
    }

    /// The reset vector.
    pub fn vector(&self) -> u16 {
        u16::from_le_bytes([self.memory[0xFFFC], self.memory[0xFFFD]])
    }

    /// The options, with what is used where none is given; times are clocks.
    pub fn options(&self) -> Value {
        let line = self.line.as_ref();
        let parity = |line: &Line| match line.frame.parity {
            None => "none",
            Some(Parity::Even) => "even",
            Some(Parity::Odd) => "odd",
        };
        json!({
            "clock": self.rate,
            "baud": line.map(|line| line.baud),
            "bits": line.map(|line| line.frame.data_bits),
            "parity": line.map(parity),
            "stops": line.map(|line| line.stops),
            "start": line.map(|line| line.start),
            "every": line.and_then(|line| line.every),
            "tail": self.tail,
            "for": self.length,
            "strict": self.strict,
        })
    }
}

fn milliseconds(number: u64, rate: u32) -> u64 {
    number * u64::from(rate) / 1_000
}

/// The line that sends a path.
fn line(arguments: &Arguments, baud: u32, path: &Source) -> Result<Line, Failure> {
    let (rate, data_bits) = (arguments.clock, arguments.bits);
    let parity = match arguments.parity {
        ParityBit::None => None,
        ParityBit::Even => Some(Parity::Even),
        ParityBit::Odd => Some(Parity::Odd),
    };
    let start = clocks("--start", arguments.start, rate)?.unwrap_or(milliseconds(2, rate).max(1));
    let every = clocks("--every", arguments.every, rate)?;
    let line = Line { rate, baud, frame: Frame { data_bits, parity }, stops: arguments.stops, start, every };
    if let Some(words) = impossible(&line, path.bytes.len()) {
        return Err(Failure::Usage(words));
    }
    match line.too_wide(&path.bytes) {
        Some((place, byte)) => Err(failed(
            Path::new(&path.name),
            format!("byte {place} is {byte:02X}h, which {data_bits} data bits do not hold"),
        )),
        None => Ok(line),
    }
}

/// Why no path of so many bytes can be sent so.
fn impossible(line: &Line, frames: usize) -> Option<String> {
    if line.baud > line.rate {
        return Some(format!("--baud: a bit of {} bits a second is below a clock", grouped(line.baud)));
    }
    let frame = line.frame_clocks();
    let each = u128::from(line.every.unwrap_or(frame + 1));
    let length = u128::from(line.start) + (frames as u128 + 1) * each;
    match line.every {
        _ if line.start == 0 => Some("--start: the first clock is 1".to_string()),
        Some(every) if every < frame => Some(format!("--every: a frame takes {} clocks", grouped(frame))),
        _ if length > u128::from(HIGHEST_TIME) => Some("the path takes too many clocks".to_string()),
        _ => None,
    }
}

/// The pin list, and RES high on clock 1 where it does not say otherwise. PA7 is the line's, where there is one.
fn inputs(pins: Option<&Source>, line: bool) -> Result<Vec<Input>, Failure> {
    let released = Input { clock: 1, pin: Pin::RES, level: Level::High };
    let Some(pins) = pins else { return Ok(vec![released]) };
    let content = std::str::from_utf8(&pins.bytes).map_err(|_| failed(Path::new(&pins.name), "is no text"))?;
    let list = list_beside(line.then_some(Pin::PA7), content);
    let mut inputs = list.map_err(|words| Failure::Inputs(format!("{}:{words}", pins.name)))?;
    let place = inputs.partition_point(|input| input.place() < released.place());
    if inputs.get(place).is_none_or(|input| input.place() != released.place()) {
        inputs.insert(place, released);
    }
    Ok(inputs)
}

#[cfg(test)]
mod tests {
    use super::*;
    use clap::Parser;

    fn plan(options: &str) -> Result<Plan, Failure> {
        let examples = concat!(env!("CARGO_MANIFEST_DIR"), "/../examples");
        let words = options.replace("TAPE", &format!("{examples}/mill.tape"));
        let words = words.replace("PATH", &format!("{examples}/mill.path"));
        let arguments = Arguments::try_parse_from(format!("run {words} -o folder").split_whitespace());
        Plan::read(&arguments.map_err(|error| Failure::Usage(error.to_string()))?)
    }

    #[test]
    fn a_run_ends_behind_its_path_or_as_asked_for() {
        let three = plan("TAPE PATH --clock 1MHz --baud 4800").unwrap();
        assert_eq!((three.path_end, three.end), (Some(2_000 + 6_875), 8_875 + 200_000));
        assert_eq!(plan("TAPE PATH --clock 1MHz --baud 4800 --tail 5").unwrap().end, 8_880);
        assert_eq!(plan("TAPE PATH --clock 2MHz --baud 4800 --for 1ms").unwrap().end, 2_000);
        assert_eq!(plan("TAPE --clock 1MHz --for 2h").unwrap().end, 7_200_000_000);
        assert_eq!(plan("TAPE --clock 1MHz --for 0").unwrap().end, 0);
        assert!(matches!(plan("TAPE --clock 1MHz"), Err(Failure::Usage(_))));
    }

    #[test]
    fn res_goes_high_on_clock_1_but_where_the_list_says_otherwise() {
        let lines = |text: &str| {
            let pins = Source { name: "pins".into(), bytes: text.as_bytes().to_vec() };
            inputs(Some(&pins), false).map(|list| list.iter().map(|input| input.fields().join(",")).collect::<Vec<_>>())
        };
        assert_eq!(inputs(None, true).unwrap().len(), 1);
        assert_eq!(lines("1,PA0,0\n2,PA0,1").unwrap(), ["1,PA0,0", "1,RES,1", "2,PA0,1"]);
        assert_eq!(lines("1,RES,0\n9,RES,1").unwrap(), ["1,RES,0", "9,RES,1"]);
        assert_eq!(lines("5,PA7,0").unwrap(), ["1,RES,1", "5,PA7,0"]);
        assert!(matches!(lines("0,PA7,0"), Err(Failure::Inputs(_))));
        let line = Source { name: "pins".into(), bytes: b"5,PB0,0\n5,PA7,0".to_vec() };
        let order = "pins:2: PA7 does not come behind PB0 on clock 5: within a clock pins rise (5)";
        assert_eq!(inputs(Some(&line), true), Err(Failure::Inputs(order.into())));
        let line = Source { name: "pins".into(), bytes: b"4,PB0,0\n5,PA7,0".to_vec() };
        let taken = "pins:2: PA7 is the line's while a path is sent (5)";
        assert_eq!(inputs(Some(&line), true), Err(Failure::Inputs(taken.into())));
        assert_eq!(inputs(Some(&line), false).map(|list| list.len()), Ok(3));
    }

    #[test]
    fn a_line_that_cannot_be_is_refused() {
        let refused = |options: &str| match plan(&format!("TAPE PATH --clock 1MHz {options}")) {
            Err(failure) => failure.to_string(),
            Ok(_) => String::new(),
        };
        assert_eq!(refused("--baud 1000001"), "--baud: a bit of 1,000,001 bits a second is below a clock");
        assert_eq!(refused("--baud 4800 --every 2291"), "--every: a frame takes 2,292 clocks");
        assert_eq!(refused("--baud 4800 --every 2292"), "");
        assert_eq!(refused("--baud 4800 --start 0"), "--start: the first clock is 1");
        assert_eq!(refused("--baud 4800 --every 300000000h"), "the path takes too many clocks");
        assert!(refused("--baud 4800 --bits 7").ends_with("byte 2 is 85h, which 7 data bits do not hold"));
    }
}
