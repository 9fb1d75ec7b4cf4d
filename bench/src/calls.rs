// What a call costs: runs of growing length, and the same clocks in calls of growing length.

use r6501q::{run, CallResult, Number, State};

use crate::processor_time::{self, Least};
use crate::start::Start;
use crate::table::{count, speed, time, Table};
use crate::timed::same_memory;

// A call of fewer clocks is made often enough for so many, and timed with the others.
const TIMED_TOGETHER: u32 = 100_000;

// The clocks that are done in calls of each length.
const TOTAL: u32 = 1_000_000;

// With fewer calls, their cost is lost in what the times vary.
const ENOUGH_CALLS: u32 = 100_000;

// No inputs, and no records, as the program writes no port.
fn call(state: State, memory: &mut [u8], n: u32) -> CallResult {
    run(state, memory, &[], &[], &mut [], &mut [], n, None)
}

fn done(number: Number) -> Result<(), String> {
    number.done().map_err(|number| number.to_string())
}

pub fn print(start: &Start, longest: u32, turns: u32) -> Result<(), String> {
    print_lengths(start, longest, turns)?;
    print_total(start, turns)
}

// 1, 10, 100 and so on.
fn powers(longest: u32) -> impl Iterator<Item = u32> {
    (0..10).map(|i| 10u32.pow(i)).take_while(move |n| *n <= longest)
}

// Runs of growing length, each from the same state. A call with n = 0 makes all checks and does nothing: it is the cost
// of a call itself.
fn print_lengths(start: &Start, longest: u32, turns: u32) -> Result<(), String> {
    let lengths = std::iter::once(0).chain(powers(longest));
    let mut rows: Vec<(u32, Least)> = lengths.map(|n| (n, Least::new())).collect();
    for _ in 0..turns {
        for (n, least) in &mut rows {
            let calls = (TIMED_TOGETHER / (*n).max(1)).max(1);
            let mut memory = start.memory.clone();
            let (number, time) = processor_time::of(|| {
                let result = (0..calls).map(|_| call(start.state, &mut memory, *n).number);
                result.max()
            });
            done(number.unwrap_or(Number::Done))?;
            least.take(time / calls);
        }
    }
    println!("One call of n clocks; least of {turns} turns.\n");
    let mut table = Table::new(&["n", "time of the call", "clocks per second"]);
    for (n, least) in &rows {
        let per_second = match n {
            0 => String::new(),
            n => speed(f64::from(*n), least.seconds()),
        };
        table.row(&[count(u64::from(*n)), time(least.seconds()), per_second]);
    }
    table.print();
    Ok(())
}

// The same clocks in calls of growing length, one going on from another. All must come to the same state and memory.
fn print_total(start: &Start, turns: u32) -> Result<(), String> {
    let mut rows: Vec<(u32, Least)> = powers(TOTAL).map(|n| (n, Least::new())).collect();
    let mut whole = start.memory.clone();
    let result = call(start.state, &mut whole, TOTAL);
    done(result.number)?;
    for _ in 0..turns {
        for (n, least) in &mut rows {
            let mut memory = start.memory.clone();
            let (state, time) = processor_time::of(|| {
                (0..TOTAL / *n).try_fold(start.state, |state, _| {
                    let result = call(state, &mut memory, *n);
                    result.number.done().map(|()| result.state)
                })
            });
            let state = state.map_err(|number| number.to_string())?;
            if state != result.state {
                return Err(format!("in calls of {n} clocks: {state:?}\n{:?}", result.state));
            }
            same_memory(&memory, &whole).map_err(|e| format!("in calls of {n} clocks: {e}"))?;
            least.take(time);
        }
    }
    println!(
        "{} clocks in calls of n; least of {turns} turns. The cost of a call is the time above that of a single call.\n",
        count(u64::from(TOTAL))
    );
    let one = rows.last().map_or(0.0, |(_, least)| least.seconds());
    let mut table = Table::new(&["n", "calls", "clocks per second", "cost of a call"]);
    for (n, least) in &rows {
        let calls = TOTAL / n;
        let cost = match calls {
            ..ENOUGH_CALLS => String::new(),
            calls => time((least.seconds() - one) / f64::from(calls)),
        };
        table.row(&[count(u64::from(*n)), count(u64::from(calls)), speed(f64::from(TOTAL), least.seconds()), cost]);
    }
    table.print();
    Ok(())
}
