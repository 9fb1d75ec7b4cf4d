//! The folder that a run writes: its records, the inputs that it read, and a summary.
use crate::failure::Failure;
use crate::files::{created, failed, replace, text};
use crate::input::{in_order, parsed, Input, HEADING};
use crate::rows::{fields, Rows};
use crate::session::Sink;
use crate::units::grouped;
use csv::StringRecord;
use r6501q::Number;
use serde_json::Value;
use std::fs::File;
use std::io::{self, ErrorKind, Read, Seek, SeekFrom, Take};
use std::path::{Path, PathBuf};

const RECORDS: &str = "records.csv";
const INPUTS: &str = "inputs.csv";
const SUMMARY: &str = "summary.json";

/// Beside the files of an earlier run: why a later one was refused. While it is there, the folder is not read.
const REFUSED: &str = "refused";

/// The first row of a record list.
const RECORDS_HEADING: [&str; 2] = ["clock", "word"];

/// A change of the driven word, with a clock of 64 bits.
#[derive(Clone, Copy, PartialEq, Eq, Debug)]
pub struct Record {
    pub clock: u64,
    pub word: u32,
}

/// A folder that is being written.
pub struct Writer {
    folder: PathBuf,
    records: csv::Writer<File>,
    inputs: csv::Writer<File>,
    /// The records written.
    pub count: u64,
    /// The last one's clock.
    pub last: Option<u64>,
}

impl Writer {
    /// Makes the folder if it is missing, and empties what a run in it left.
    pub fn create(folder: &Path) -> Result<Writer, Failure> {
        std::fs::create_dir_all(folder).map_err(|error| failed(folder, error))?;
        let folder = folder.to_path_buf();
        let headed = |name: &str, heading: &[&str]| {
            let path = folder.join(name);
            let mut list = csv::Writer::from_writer(created(&path)?);
            list.write_record(heading).map_err(|error| failed(&path, error))?;
            Ok(list)
        };
        let (records, inputs) = (headed(RECORDS, &RECORDS_HEADING)?, headed(INPUTS, &HEADING)?);
        Ok(Writer { folder, records, inputs, count: 0, last: None })
    }

    /// Writes the summary in the place of an earlier one, behind all records so far. No refused run's words stay.
    pub fn summarize(&mut self, summary: &Value) -> Result<(), Failure> {
        self.records.flush().map_err(|error| failed(&self.folder.join(RECORDS), error))?;
        self.inputs.flush().map_err(|error| failed(&self.folder.join(INPUTS), error))?;
        replace(&self.folder.join(SUMMARY), &format!("{summary:#}\n"))?;
        let words = self.folder.join(REFUSED);
        match std::fs::remove_file(&words) {
            Err(error) if error.kind() != ErrorKind::NotFound => Err(failed(&words, error)),
            _ => Ok(()),
        }
    }
}

impl Sink for Writer {
    fn input(&mut self, input: Input) -> Result<(), Failure> {
        self.inputs.write_record(input.fields()).map_err(|error| failed(&self.folder.join(INPUTS), error))
    }

    fn record(&mut self, clock: u64, word: u32) -> Result<(), Failure> {
        self.count += 1;
        self.last = Some(clock);
        let fields = [clock.to_string(), format!("{word:08X}")];
        self.records.write_record(fields).map_err(|error| failed(&self.folder.join(RECORDS), error))
    }
}

/// Sees to it that the files of an earlier run are not taken for those of one that is refused: puts the refusal's words
/// beside them, and says what it did. Nothing is done where there is no earlier run.
pub fn refuse(folder: &Path, failure: &Failure) -> Option<String> {
    let (name, words) = (folder.display(), folder.join(REFUSED));
    if !folder.join(SUMMARY).exists() {
        return None;
    }
    Some(match std::fs::write(&words, format!("{failure}\n")) {
        Ok(()) => format!("{name} holds an earlier run, which is not read while {} is there", words.display()),
        Err(_) => format!("{name} holds an earlier run, not this one"),
    })
}

/// A folder that a run has written.
pub struct Folder {
    path: PathBuf,
    /// Clocks a second.
    pub rate: u32,
    /// The last clock done; of a run that is not complete, the last one known.
    pub last_clock: u64,
    /// Whether the run is not complete: it was cut short, or still goes on.
    pub partial: bool,
    /// Whether an undefined opcode ended it, on the clock behind the last one.
    pub undefined: bool,
}

impl Folder {
    /// Opens a folder by its summary. One in which a later run was refused is not opened.
    pub fn open(name: &str) -> Result<Folder, Failure> {
        let path = PathBuf::from(name);
        let words = path.join(REFUSED);
        if words.exists() {
            let (why, words) = (text(&words).unwrap_or_default(), words.display());
            let what = "the last run was refused, and an earlier one is here";
            return Err(Failure::File(format!("{name}: {what}: delete {words} to read it; {}", why.trim_end())));
        }
        let file = path.join(SUMMARY);
        let summary: Value = serde_json::from_str(&text(&file)?).map_err(|error| failed(&file, error))?;
        let missing = |field: &str| failed(&file, format!("`{field}` is missing or wrong"));
        let rate = summary["options"]["clock"].as_u64().and_then(|rate| u32::try_from(rate).ok());
        let rate = rate.filter(|rate| *rate > 0).ok_or_else(|| missing("options.clock"))?;
        let last_clock = summary["last_clock"].as_u64().ok_or_else(|| missing("last_clock"))?;
        let partial = summary["partial"] != false;
        let undefined = summary["number"] == u8::from(Number::UndefinedOpcode);
        // The summary of a run that goes on, or was killed, is that of its start.
        let recorded = if partial { last_recorded(&path.join(RECORDS)) } else { None };
        Ok(Folder { path, rate, last_clock: last_clock.max(recorded.unwrap_or(0)), partial, undefined })
    }

    /// A run of this name and rate, without its files.
    #[cfg(test)]
    pub fn named(name: &str, rate: u32) -> Folder {
        Folder { path: PathBuf::from(name), rate, last_clock: 0, partial: false, undefined: false }
    }

    /// The folder's name, as it was given.
    pub fn name(&self) -> String {
        self.path.display().to_string()
    }

    /// What is to be said of the run before it is read: it has not all that was asked for.
    pub fn unfinished(&self) -> Option<String> {
        let clock = grouped(self.last_clock.saturating_add(1));
        match self {
            _ if self.partial => Some("partial, the run is not complete".to_string()),
            _ if self.undefined => Some(format!("the run ended at an undefined opcode, clock {clock} (6)")),
            _ => None,
        }
    }

    /// The records, in order.
    pub fn records(&self) -> Result<impl Iterator<Item = Result<Record, Failure>>, Failure> {
        let mut last = 0;
        list(self.path.join(RECORDS), RECORDS_HEADING, self.partial, move |row| record(row, &mut last))
    }

    /// The inputs that the run read, in order.
    pub fn inputs(&self) -> Result<impl Iterator<Item = Result<Input, Failure>>, Failure> {
        let mut last: Option<Input> = None;
        list(self.path.join(INPUTS), HEADING, self.partial, move |row| {
            let input = parsed(row).and_then(|input| in_order(last.as_ref(), input))?;
            last = Some(input);
            Ok(input)
        })
    }
}

/// The rows of a list behind its heading, as a reader takes them; what is wrong is said with file and line.
fn list<T, const N: usize>(
    path: PathBuf,
    heading: [&str; N],
    partial: bool,
    mut reader: impl FnMut(&StringRecord) -> Result<T, String>,
) -> Result<impl Iterator<Item = Result<T, Failure>>, Failure> {
    let file = File::open(&path).and_then(|file| if partial { whole_lines(file) } else { Ok(file.take(u64::MAX)) });
    let mut rows = Rows::plain(file.map_err(|error| failed(&path, error))?);
    match rows.next() {
        Ok(Some((1, row))) if fields(row, &heading) == Ok(heading) => {}
        _ => return Err(failed(&path, format!("the first line is not `{}`", heading.join(",")))),
    }
    Ok(std::iter::from_fn(move || match rows.next() {
        Ok(None) => None,
        Ok(Some((number, row))) => {
            Some(reader(row).map_err(|words| Failure::File(format!("{}:{number}: {words}", path.display()))))
        }
        Err(error) => Some(Err(failed(&path, error))),
    }))
}

/// The lines of a list that have their end, as it is now: what stands behind them is half written.
fn whole_lines(mut file: File) -> io::Result<Take<File>> {
    let length = whole_length(&mut file)?;
    file.rewind()?;
    Ok(file.take(length))
}

/// The bytes up to the last line's end, which is looked for from behind.
fn whole_length(file: &mut File) -> io::Result<u64> {
    const CHUNK: u64 = 4_096;
    let mut end = file.metadata()?.len();
    while end > 0 {
        let start = end.saturating_sub(CHUNK);
        file.seek(SeekFrom::Start(start))?;
        let mut chunk = Vec::new();
        file.take(end - start).read_to_end(&mut chunk)?;
        if let Some(place) = chunk.iter().rposition(|byte| *byte == b'\n') {
            return Ok(start + place as u64 + 1);
        }
        end = start;
    }
    Ok(0)
}

/// The clock of the last whole line of a record list, if it has one.
fn last_recorded(path: &Path) -> Option<u64> {
    const LINES: u64 = 256; // bytes that hold more than two lines
    let mut file = File::open(path).ok()?;
    let whole = whole_length(&mut file).ok()?;
    file.seek(SeekFrom::Start(whole.saturating_sub(LINES))).ok()?;
    let mut rows = Rows::plain(file.take(LINES.min(whole)));
    let mut last = None;
    while let Some((_, row)) = rows.next().ok()? {
        last = record(row, &mut 0).ok().map(|record| record.clock);
    }
    last
}

/// A record as a row has it, behind one of an earlier clock.
fn record(row: &StringRecord, last: &mut u64) -> Result<Record, String> {
    let [clock, word] = fields(row, &RECORDS_HEADING)?;
    let clock = clock.parse().map_err(|_| format!("`{clock}` is no clock"))?;
    let digits = word.len() == 8 && word.bytes().all(|byte| byte.is_ascii_hexdigit());
    let word = u32::from_str_radix(word, 16).ok().filter(|_| digits).ok_or_else(|| format!("`{word}` is no word"))?;
    if clock <= *last {
        return Err(format!("clock {clock} does not come behind {last}"));
    }
    *last = clock;
    Ok(Record { clock, word })
}

#[cfg(test)]
mod tests {
    use super::*;
    use r6501q::{Level, Pin};
    use serde_json::json;

    fn scratch(name: &str) -> PathBuf {
        std::env::temp_dir().join(format!("mill_{}_{name}", std::process::id()))
    }

    fn summary() -> Value {
        summary_of(100, false)
    }

    fn summary_of(last_clock: u32, partial: bool) -> Value {
        json!({ "options": { "clock": 1_000_000 }, "last_clock": last_clock, "partial": partial })
    }

    #[test]
    fn what_is_written_is_read() {
        let folder = scratch("read");
        let mut writer = Writer::create(&folder).unwrap();
        let input = Input { clock: 1, pin: Pin::RES, level: Level::High };
        writer.input(input).unwrap();
        writer.record(10, 0xFFFF_FF55).unwrap();
        writer.record(7_200_000_000, 0xDD).unwrap();
        writer.summarize(&summary()).unwrap();

        let read = Folder::open(folder.to_str().unwrap()).unwrap();
        assert_eq!((read.rate, read.last_clock, read.partial), (1_000_000, 100, false));
        let records: Vec<Record> = read.records().unwrap().map(Result::unwrap).collect();
        assert_eq!(records, [Record { clock: 10, word: 0xFFFF_FF55 }, Record { clock: 7_200_000_000, word: 0xDD }]);
        assert_eq!(read.inputs().unwrap().map(Result::unwrap).collect::<Vec<_>>(), [input]);
        std::fs::remove_dir_all(folder).unwrap();
    }

    #[test]
    fn an_earlier_run_is_not_read_in_the_place_of_a_refused_one() {
        let folder = scratch("earlier");
        let name = folder.to_str().unwrap().to_string();
        let failure = Failure::Tape("mill.tape:3: check sum".into());
        assert_eq!(refuse(&folder, &failure), None); // no folder
        std::fs::create_dir_all(&folder).unwrap();
        assert_eq!(refuse(&folder, &failure), None); // no run
        assert!(!folder.join(REFUSED).exists());

        let mut writer = Writer::create(&folder).unwrap();
        writer.record(10, 0xFFFF_FF55).unwrap();
        writer.summarize(&summary()).unwrap();
        let words = folder.join(REFUSED).display().to_string();
        let noted = format!("{name} holds an earlier run, which is not read while {words} is there");
        assert_eq!(refuse(&folder, &failure), Some(noted));
        let what = "the last run was refused, and an earlier one is here";
        let expected = format!("{name}: {what}: delete {words} to read it; mill.tape:3: check sum");
        assert_eq!(Folder::open(&name).err(), Some(Failure::File(expected)));

        std::fs::remove_file(&words).unwrap(); // by hand: the earlier run is as it was
        assert_eq!(Folder::open(&name).unwrap().records().unwrap().count(), 1);
        assert!(refuse(&folder, &failure).is_some());
        let mut writer = Writer::create(&folder).unwrap(); // by a run
        assert!(Folder::open(&name).is_err());
        writer.summarize(&summary()).unwrap();
        assert_eq!(Folder::open(&name).unwrap().records().unwrap().count(), 0);
        std::fs::remove_dir_all(folder).unwrap();
    }

    #[test]
    fn a_half_written_line_is_left_out_where_the_run_is_not_complete() {
        let folder = scratch("half");
        std::fs::create_dir_all(&folder).unwrap();
        let read = |records: &str, inputs: &str, partial: bool| {
            std::fs::write(folder.join(RECORDS), format!("clock,word\n{records}")).unwrap();
            std::fs::write(folder.join(INPUTS), format!("clock,pin,level\n{inputs}")).unwrap();
            std::fs::write(folder.join(SUMMARY), summary_of(0, partial).to_string()).unwrap();
            let folder = Folder::open(folder.to_str().unwrap()).unwrap();
            let records = folder.records().unwrap().map(|record| record.map(|record| record.clock));
            let inputs = folder.inputs().unwrap().map(|input| input.map(|input| input.clock));
            let (records, inputs) = (records.collect::<Result<Vec<_>, _>>(), inputs.collect::<Result<Vec<_>, _>>());
            (records.ok(), inputs.ok(), folder.last_clock)
        };
        let (records, inputs) = ("10,FFFFFF55\n200,FFFFFFFF\n", "1,RES,1\n5,PB0,0\n");
        assert_eq!(read(records, inputs, true), (Some(vec![10, 200]), Some(vec![1, 5]), 200));
        assert_eq!(read(records, inputs, false), (Some(vec![10, 200]), Some(vec![1, 5]), 0));
        for cut in 13..records.len() {
            assert_eq!(read(&records[..cut], "1,RES,1\n5,P", true), (Some(vec![10]), Some(vec![1]), 10), "{cut}");
        }
        assert_eq!(read("10", "1", true), (Some(vec![]), Some(vec![]), 0));
        assert_eq!(read("", "", true), (Some(vec![]), Some(vec![]), 0));
        assert_eq!(read("10,FFFFFF55\n200,", "1,RES,1\n5,P", false), (None, None, 0));
        // A whole file may lack its last line's end; a damaged line is refused wherever it has one.
        assert_eq!(read("10,FFFFFF55", "1,RES,1", false), (Some(vec![10]), Some(vec![1]), 0));
        assert_eq!(read("10,FFFFFF55\n200,\n", "1,RES,1\n", true), (None, Some(vec![1]), 0));
        std::fs::remove_dir_all(folder).unwrap();
    }

    #[test]
    fn a_run_that_has_not_all_its_clocks_says_so() {
        let mut folder = Folder { last_clock: 3_060, ..Folder::named("run", 1_000_000) };
        assert_eq!(folder.unfinished(), None);
        folder.undefined = true;
        let words = "the run ended at an undefined opcode, clock 3,061 (6)";
        assert_eq!(folder.unfinished(), Some(words.to_string()));
        folder.partial = true;
        assert_eq!(folder.unfinished(), Some("partial, the run is not complete".to_string()));
    }

    #[test]
    fn damaged_records_are_refused() {
        let mut last = 0;
        let mut record = |fields: &[&str]| record(&StringRecord::from(fields), &mut last);
        assert_eq!(record(&["10", "FFFFFF55"]), Ok(Record { clock: 10, word: 0xFFFF_FF55 }));
        assert_eq!(record(&["10", "FFFFFF55"]), Err("clock 10 does not come behind 10".into()));
        assert_eq!(record(&["12"]), Err("`12` is not clock,word".into()));
        assert_eq!(record(&["12", "+FFFFF55"]), Err("`+FFFFF55` is no word".into()));
        assert_eq!(record(&["x", "FFFFFF55"]), Err("`x` is no clock".into()));
    }

    #[test]
    fn a_folder_without_its_files_is_refused() {
        let folder = scratch("refused");
        let name = folder.to_str().unwrap().to_string();
        assert!(matches!(Folder::open(&name), Err(Failure::File(_))));
        std::fs::create_dir_all(&folder).unwrap();
        std::fs::write(folder.join(SUMMARY), "{}").unwrap();
        assert!(Folder::open(&name).err().unwrap().to_string().ends_with("`options.clock` is missing or wrong"));
        std::fs::write(folder.join(SUMMARY), summary().to_string()).unwrap();
        std::fs::write(folder.join(RECORDS), "clock\n").unwrap();
        let read = Folder::open(&name).unwrap();
        assert!(read.records().err().unwrap().to_string().ends_with("the first line is not `clock,word`"));
        std::fs::remove_dir_all(folder).unwrap();
    }
}
