//! `mill run`: a tape with a path on the serial line, to a folder of records.
use super::CODES;
use crate::failure::{Failure, Verdict};
use crate::files::{note, print};
use crate::folder::{refuse, Writer};
use crate::input::Input;
use crate::interrupt::Interrupt;
use crate::merged::Merged;
use crate::plan::{Plan, Source};
use crate::progress::Progress;
use crate::session::{Session, Sizes};
use crate::undefined::of_65c02;
use crate::units::{bit_rate, grouped, hundredths, rate, seconds, Time, TIMES};
use crate::watch::{next_look, Watch, FAULTS};
use clap::builder::RangedI64ValueParser;
use clap::{value_parser, Parser, ValueEnum};
use r6501q::Number;
use serde_json::{json, Value};
use std::ffi::OsString;
use std::path::Path;

/// Sends the path's bytes on PA7, runs the tape, and writes what the chip does.
#[derive(Parser)]
#[command(after_help = format!("{WRITTEN}\n\n{TIMES}\n{SIZES}\n\n{CODES}"))]
#[group(skip)]
pub struct Arguments {
    /// The tape to run
    pub tape: String,
    /// The file whose bytes are sent
    #[arg(requires = "baud")]
    pub path: Option<String>,
    /// The folder to write
    #[arg(short, value_name = "DIR")]
    pub output: String,
    /// Clocks a second, as 1MHz
    #[arg(long, value_name = "RATE", value_parser = rate)]
    pub clock: u32,
    /// Bits a second on PA7; needed with a path
    #[arg(long, value_name = "RATE", value_parser = bit_rate)]
    pub baud: Option<u32>,
    /// Data bits, 5 to 8
    #[arg(long, value_name = "N", default_value_t = 8, value_parser = value_parser!(u8).range(5..=8))]
    pub bits: u8,
    /// The bit behind the data bits
    #[arg(long, value_name = "P", value_enum, default_value_t = ParityBit::None)]
    pub parity: ParityBit,
    /// Stop bits, 1 or 2
    #[arg(long, value_name = "N", default_value_t = 2, value_parser = value_parser!(u32).range(1..=2))]
    pub stops: u32,
    /// When the first frame begins [default: 2ms]
    #[arg(long, value_name = "TIME", value_parser = Time::parsed)]
    pub start: Option<Time>,
    /// From one frame's begin to the next one's [default: each right behind the last]
    #[arg(long, value_name = "TIME", value_parser = Time::parsed)]
    pub every: Option<Time>,
    /// How long to run behind the path's end and the last input [default: 200ms]
    #[arg(long, value_name = "TIME", value_parser = Time::parsed)]
    pub tail: Option<Time>,
    /// How long to run in all, in the place of the tail
    #[arg(long = "for", value_name = "TIME", value_parser = Time::parsed)]
    pub length: Option<Time>,
    /// Other inputs, CSV: clock,pin,level. RES goes high on clock 1 unless the list has it on that clock
    #[arg(long, value_name = "FILE")]
    pub inputs: Option<String>,
    /// Exit code 7 where the line and the receiver do not fit together
    #[arg(long)]
    pub strict: bool,
    #[arg(long, hide = true, default_value_t = Sizes::default().piece, value_parser = up_to(1 << 30))]
    pub piece: u32,
    #[arg(long, hide = true, default_value_t = Sizes::default().space, value_parser = up_to(1 << 24))]
    pub space: u32,
    #[arg(long, hide = true, default_value_t = Sizes::default().set_back, value_parser = up_to(1 << 31))]
    pub set_back: u32,
}

/// A whole number from 1 on.
fn up_to(most: i64) -> RangedI64ValueParser<u32> {
    value_parser!(u32).range(1..=most)
}

/// The parity bit of a frame, as it is named.
#[derive(Clone, Copy, ValueEnum)]
pub enum ParityBit {
    None,
    Even,
    Odd,
}

const WRITTEN: &str = "records.csv, inputs.csv and summary.json are written into DIR, in the place of an earlier \
                       run's. A refused run puts the file `refused` beside those: they are not read while it is there.";

const SIZES: &str = "For tests, without effect on what is written: --piece CLOCKS, --space RECORDS, --set-back CLOCKS.";

/// Clocks between two looks at progress and signals, at most.
const STRETCH: u64 = 1 << 20;

/// Milliseconds before the end in which a change of the output is noted: a cutter that moves makes more than 50 steps a
/// second.
const STILL: u128 = 20;

/// How a run ended.
#[derive(Clone, Copy, PartialEq, Eq)]
enum End {
    /// All clocks done, or a stop.
    Number(Number),
    /// A signal.
    Interrupted,
}

pub fn act(arguments: &Arguments) -> Result<Verdict, Failure> {
    let folder = arguments.output.as_str();
    let plan = Plan::read(arguments).inspect_err(|failure| refused(folder, failure))?;
    if plan.vector() == 0 {
        note(&format!("mill: note: {} brings no reset vector, FFFCh and FFFDh are zero", plan.tape.name));
    }
    let line = plan.line.iter().flat_map(|line| line.inputs(plan.bytes()));
    let inputs = Merged::of(plan.inputs.iter().copied(), line);
    let mut run = Run {
        plan: &plan,
        session: Session::fresh(plan.memory.clone(), inputs, plan.sizes),
        watch: Watch::over(plan.line.as_ref()),
        writer: Writer::create(Path::new(folder)).inspect_err(|failure| refused(folder, failure))?,
    };
    run.writer.summarize(&run.summary(None))?;
    let interrupt = Interrupt::noted().map_err(|error| Failure::File(format!("signals: {error}")))?;
    let end = run.driven(&interrupt)?;
    run.writer.summarize(&run.summary(Some(end)))?;
    run.moving(Some(end)).iter().for_each(|words| note(&format!("mill: note: {words}")));
    run.watch.warnings.iter().for_each(|words| note(&format!("mill: warning: {words}")));
    print(&format!("{folder}: {}\n", run.told(end)))?;
    run.verdict(end)
}

/// A run that is refused before it begins: an earlier one in its folder is not to be taken for it.
pub fn refused(folder: &str, failure: &Failure) {
    refuse(Path::new(folder), failure).iter().for_each(|words| note(&format!("mill: note: {words}")));
}

/// The folder of a run among words that may be wrong otherwise.
pub fn folder_among(words: &[OsString]) -> Option<&str> {
    let mut words = words.iter().filter_map(|word| word.to_str()).skip(1);
    words.next().filter(|command| *command == "run")?;
    while let Some(word) = words.next() {
        match word.strip_prefix("-o") {
            Some("") => return words.next(),
            Some(behind) => return Some(behind.strip_prefix('=').unwrap_or(behind)),
            None => {}
        }
    }
    None
}

/// A run that is under way.
struct Run<'a, I: Iterator<Item = Input>> {
    plan: &'a Plan,
    session: Session<I>,
    watch: Watch<'a>,
    writer: Writer,
}

impl<I: Iterator<Item = Input>> Run<'_, I> {
    /// Runs to the end, and shows how far it is.
    fn driven(&mut self, interrupt: &Interrupt) -> Result<End, Failure> {
        let end = self.plan.end;
        let mut begin = self.plan.path_end.and(self.plan.line).map_or(u64::MAX, |line| line.start);
        let progress = Progress::to(end, self.plan.rate);
        let mut number = Number::Done;
        while self.session.now() < end && number == Number::Done && !interrupt.asked() {
            progress.at(self.session.now());
            number = self.stretch(end, &mut begin)?;
        }
        progress.end();
        if let Some(path_end) = self.plan.path_end {
            self.watch.run_ends(self.session.now(), path_end, self.plan.bytes().len() as u64);
        }
        let cut = self.session.now() < end && number == Number::Done;
        Ok(if cut { End::Interrupted } else { End::Number(number) })
    }

    /// Runs to the next look at the receiver, to where the path begins or a frame ends, but not too far.
    fn stretch(&mut self, end: u64, begin: &mut u64) -> Result<Number, Failure> {
        let (now, next_input) = (self.session.now(), self.session.next_input());
        let look = next_look(self.session.state(), now, next_input);
        let to = look.clock.min(now + STRETCH).min(*begin).min(end);
        let number = match self.session.advance(to, look.halt, &mut self.writer)? {
            Number::HaltedAtWrite => Number::Done, // a look
            number => number,
        };
        let reached = self.session.now();
        if number == Number::Done && reached == *begin {
            self.watch.path_begins(self.session.state(), reached);
            *begin = u64::MAX;
        }
        if number == Number::Done && look.frame_end && reached == look.clock {
            self.watch.frame_ends(self.session.state(), reached);
        }
        Ok(number)
    }

    /// The end in words; of an undefined opcode which, where and when.
    fn words(&self, end: End) -> String {
        match end {
            End::Interrupted => "interrupted".to_string(),
            End::Number(Number::UndefinedOpcode) => {
                let pc = self.session.state().cpu.pc;
                let byte = self.session.byte(pc);
                let opcode = byte.map_or(String::new(), |byte| format!(" {byte:02X}h"));
                let known = byte.and_then(of_65c02).map_or(String::new(), |name| format!(", {name} of a 65C02"));
                format!("undefined opcode{opcode} at {pc:04X}h, clock {} (6){known}", grouped(self.session.now() + 1))
            }
            End::Number(number) => number.to_string(),
        }
    }

    /// What is noted where the output still changed shortly before all clocks were done: a move may be cut off.
    fn moving(&self, end: Option<End>) -> Option<String> {
        let (since, rate) = (u128::from(self.session.now() - self.writer.last?), u128::from(self.plan.rate));
        let near = 1_000 * since < STILL * rate;
        let milliseconds = hundredths(1_000 * since, rate);
        let option = if self.plan.length.is_some() { "--for" } else { "--tail" };
        (near && end == Some(End::Number(Number::Done))).then(|| {
            format!("the output still changed {milliseconds} ms before the end: a longer {option} may be wanted")
        })
    }

    /// What went in, what was asked for, and how it ended; no end: the run is under way.
    fn summary(&self, end: Option<End>) -> Value {
        let number = match end {
            Some(End::Number(number)) => Some(u8::from(number)),
            _ => None,
        };
        let now = self.session.now();
        let faults: Value = FAULTS.map(String::from).into_iter().zip(self.watch.faults.map(Value::from)).collect();
        json!({
            "version": env!("CARGO_PKG_VERSION"),
            "tape": self.plan.tape.json(),
            "path": self.plan.path.as_ref().map(Source::json),
            "inputs": self.plan.pins.as_ref().map(Source::json),
            "options": self.plan.options(),
            "path_end": self.plan.path_end,
            "partial": matches!(end, None | Some(End::Interrupted)),
            "number": number,
            "words": end.map_or("running".to_string(), |end| self.words(end)),
            "last_clock": now,
            "seconds": seconds(now, self.plan.rate),
            "pc": format!("{:04X}", self.session.state().cpu.pc),
            "records": self.writer.count,
            "frames_received": self.watch.frames,
            "frames_with": faults,
            "warnings": self.watch.warnings,
            "notes": Vec::from_iter(self.moving(end)),
        })
    }

    /// What was done, in a line.
    fn told(&self, end: End) -> String {
        let (time, clocks) = (seconds(self.session.now(), self.plan.rate), grouped(self.session.now()));
        format!("{time} s, {clocks} clocks, {} records: {}", grouped(self.writer.count), self.words(end))
    }

    fn verdict(&self, end: End) -> Result<Verdict, Failure> {
        let unfit = self.plan.strict && !self.watch.warnings.is_empty();
        match end {
            End::Number(Number::Done) if unfit => {
                Err(Failure::Line("the line and the receiver do not fit together, see the warnings above".to_string()))
            }
            End::Number(Number::Done) => Ok(Verdict::Done),
            End::Number(Number::WrongPinList) => Err(Failure::Inputs(self.words(end))),
            // 6: state, memory and lists are right, and 7 is taken care of.
            End::Number(_) => Err(Failure::Opcode(self.words(end))),
            End::Interrupted => Err(Failure::Interrupted(self.words(end))),
        }
    }
}

#[cfg(test)]
mod tests {
    use super::*;
    use crate::folder::Folder;
    use crate::steps::Axis;

    #[test]
    fn a_folder_is_found_among_wrong_words() {
        let found = |line: &str| {
            let words: Vec<OsString> = line.split_whitespace().map(OsString::from).collect();
            folder_among(&words).map(String::from)
        };
        for line in ["mill run a --clok 1 -o b", "mill run a c d -o=b", "mill run -ob --clok"] {
            assert_eq!(found(line), Some("b".to_string()), "{line}");
        }
        assert_eq!(
            [found("mill run a -o"), found("mill run --o=b"), found("mill tape -o b"), found("")],
            [const { None }; 4]
        );
    }

    #[test]
    fn the_example_makes_the_steps_of_its_path() {
        let examples = concat!(env!("CARGO_MANIFEST_DIR"), "/../examples");
        let folder = std::env::temp_dir().join(format!("mill_{}_run", std::process::id()));
        let words = format!(
            "run {examples}/mill.tape {examples}/mill.path -o {} --clock 1MHz --baud 4800 --strict",
            folder.display()
        );
        let arguments = Arguments::try_parse_from(words.split_whitespace()).unwrap();
        assert_eq!(act(&arguments), Ok(Verdict::Done));
        let written = Folder::open(folder.to_str().unwrap()).unwrap();
        assert_eq!((written.rate, written.last_clock, written.partial), (1_000_000, 208_875, false));
        let steps: Vec<i64> =
            Axis::example().steps(written.records().unwrap()).map(|step| step.unwrap().position).collect();
        let moves = (1..=10).chain((5..10).rev()).chain(6..=12);
        assert_eq!(steps, moves.collect::<Vec<i64>>());
        std::fs::remove_dir_all(folder).unwrap();
    }
}
