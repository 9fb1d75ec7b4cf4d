// What a list of inputs costs a run: entries later than the run, which are checked and stay unread, and entries spread
// within it. The inputs change PB0, which the program never looks at.

use r6501q::{code, run, Number};

use crate::processor_time::{self, Least};
use crate::start::Start;
use crate::table::{count, speed, time, Table};

// The clocks of a run, and the runs that are timed together.
const LATER_CLOCKS: u32 = 1_000;
const LATER_RUNS: u32 = 100;
const WITHIN_CLOCKS: u32 = 1_000_000;
const PB0: u8 = 8;

// With fewer entries, their cost is lost in what the times vary.
const ENOUGH_LATER: usize = 10_000;
const ENOUGH_WITHIN: usize = 100_000;

// A list of inputs, and how a run with it went.
struct Row {
    clocks: Vec<u32>,
    codes: Vec<u8>,
    least: Least,
    leaps: u32,
}

impl Row {
    // As many entries, at the clocks that a function gives, PB0 low and high by turns.
    fn new(entries: u32, at: impl Fn(u32) -> u32) -> Row {
        Row {
            clocks: (0..entries).map(at).collect(),
            codes: (0..entries).map(|i| code(PB0, i % 2 == 1)).collect(),
            least: Least::new(),
            leaps: 0,
        }
    }

    fn entries(&self) -> usize {
        self.clocks.len()
    }

    // Runs of n clocks from the start, each of which must read so many entries.
    fn run(&mut self, start: &Start, n: u32, runs: u32, read: usize) -> Result<(), String> {
        let mut memory = start.memory.clone();
        let (clocks, codes) = (&self.clocks, &self.codes);
        let (result, time) = processor_time::of(|| {
            let mut leaps = Ok(0);
            for _ in 0..runs {
                let result = run(start.state, &mut memory, clocks, codes, &mut [], &mut [], n, None);
                if (result.number, result.read) != (Number::Done, read) {
                    return Err(format!("{}, {} inputs read", result.number, result.read));
                }
                leaps = Ok(result.leaps);
            }
            leaps
        });
        self.leaps = result?;
        self.least.take(time / runs);
        Ok(())
    }

    // What an entry adds to the run without any, where there are enough of them.
    fn each(&self, none: Least, enough: usize) -> String {
        if self.entries() < enough {
            return String::new();
        }
        time((self.least.seconds() - none.seconds()) / self.entries() as f64)
    }
}

pub fn print(start: &Start, lengths: &[u32], turns: u32) -> Result<(), String> {
    print_later(start, lengths, turns)?;
    print_within(start, lengths, turns)
}

fn print_later(start: &Start, lengths: &[u32], turns: u32) -> Result<(), String> {
    let row = |entries: &u32| Row::new(*entries, |i| start.state.clock + LATER_CLOCKS + 1 + i);
    let mut rows: Vec<Row> = lengths.iter().map(row).collect();
    for _ in 0..turns {
        for row in &mut rows {
            row.run(start, LATER_CLOCKS, LATER_RUNS, 0)?;
        }
    }
    println!("Inputs later than a run of {} clocks; least of {turns} turns.\n", count(u64::from(LATER_CLOCKS)));
    let mut table = Table::new(&["later inputs", "time of the run", "each input"]);
    for row in &rows {
        table.row(&[count(row.entries() as u64), time(row.least.seconds()), row.each(rows[0].least, ENOUGH_LATER)]);
    }
    table.print();
    Ok(())
}

fn print_within(start: &Start, lengths: &[u32], turns: u32) -> Result<(), String> {
    let row = |entries: &u32| {
        let entries = *entries;
        Row::new(entries, |i| start.state.clock + (i + 1) * (WITHIN_CLOCKS / entries))
    };
    let mut rows: Vec<Row> = lengths.iter().map(row).collect();
    for _ in 0..turns {
        for row in &mut rows {
            row.run(start, WITHIN_CLOCKS, 1, row.entries())?;
        }
    }
    println!("Inputs spread within a run of {} clocks; least of {turns} turns.\n", count(u64::from(WITHIN_CLOCKS)));
    let mut table = Table::new(&["inputs within", "leaps", "clocks per second", "each input"]);
    for row in &rows {
        table.row(&[
            count(row.entries() as u64),
            count(u64::from(row.leaps)),
            speed(f64::from(WITHIN_CLOCKS), row.least.seconds()),
            row.each(rows[0].least, ENOUGH_WITHIN),
        ]);
    }
    table.print();
    Ok(())
}
