//! The library's calls against the plain-clock model, over lists of calls.
//!
//! `differential run scenarios seed [threads]`, `differential serial`, `differential starts scenarios seed`,
//! `differential tapes number seed`, `differential totals number seed`, `differential stretches folder times seed`,
//! `differential replay seed index`. It ends with 1 at a difference, with 2 where an argument is wrong.

mod code;
mod compare;
mod coverage;
mod damage;
mod halts;
mod inputs;
mod memories;
mod replay;
mod scenario;
mod serial;
mod starts;
mod states;
mod stretches;
mod sums;
mod tapes;

use compare::{Difference, Sides};
use coverage::Coverage;
use differential::convert::library_state;
use differential::random;
use scenario::{Maker, Scenario};
use std::panic::{catch_unwind, AssertUnwindSafe};
use std::path::Path;
use std::process::ExitCode;
use std::sync::atomic::{AtomicBool, AtomicU64, Ordering};
use std::time::Instant;

/// Scenarios that a thread takes at once.
const PART: u64 = 1_000;

/// From so many scenarios on, each kind must occur at least once in 10,000.
const COUNTED: u64 = 100_000;
const RAREST: u64 = 10_000;

const USAGE: &str =
    "usage: differential run scenarios seed [threads] | serial | starts scenarios seed | tapes number seed | \
     totals number seed | stretches folder times seed | replay seed index; counts from 1 up";

fn main() -> ExitCode {
    let arguments: Vec<String> = std::env::args().skip(1).collect();
    match right(&arguments) {
        Some(true) => ExitCode::SUCCESS,
        Some(false) => ExitCode::FAILURE,
        None => {
            eprintln!("{USAGE}");
            ExitCode::from(2)
        }
    }
}

/// Whether no difference was found in what is asked for; none where that is not to be understood.
fn right(arguments: &[String]) -> Option<bool> {
    let (what, mut numbers) = arguments.split_first()?;
    let mut folder = None;
    if what == "stretches" {
        (folder, numbers) = numbers.split_first().map(|(folder, numbers)| (Some(Path::new(folder)), numbers))?;
    }
    let numbers: Vec<u64> = numbers.iter().map(|text| text.parse().ok()).collect::<Option<_>>()?;
    match (what.as_str(), &numbers[..]) {
        ("stretches", &[times @ 1..=1_000, seed]) => Some(run_stretches(folder?, times as u32, seed)),
        ("run", &[scenarios @ (1..), seed]) => Some(run(scenarios, seed, 1)),
        ("run", &[scenarios @ (1..), seed, threads @ (1..)]) => Some(run(scenarios, seed, threads)),
        ("serial", &[]) => Some(run_serial()),
        ("starts", &[scenarios @ (1..), seed]) => Some(run_starts(scenarios, seed)),
        ("tapes", &[tapes @ (1..), seed]) => Some(run_tapes(tapes, seed)),
        ("totals", &[lists @ (1..), seed]) => Some(run_totals(lists, seed)),
        ("replay", &[seed, index]) => Some(replay::replay(seed, index)),
        _ => None,
    }
}

/// A scenario on which the sides differ.
struct Found {
    index: u64,
    difference: Difference,
}

/// What the threads share: the next part of the scenarios, and whether one has found a difference.
struct Shared {
    seed: u64,
    scenarios: u64,
    next: AtomicU64,
    ended: AtomicBool,
}

fn run(scenarios: u64, seed: u64, threads: u64) -> bool {
    if r6501q::State::fresh() != library_state(&plain_clock::fresh()) {
        println!("the fresh states differ");
        return false;
    }
    let begun = Instant::now();
    let shared = Shared { seed, scenarios, next: AtomicU64::new(0), ended: AtomicBool::new(false) };
    let mut coverage = Coverage::new();
    let mut found = Vec::new();
    std::thread::scope(|scope| {
        let workers: Vec<_> = (0..threads).map(|_| scope.spawn(|| work(&shared))).collect();
        for worker in workers {
            let (met, difference) = worker.join().expect("a thread");
            coverage.add(&met);
            found.extend(difference);
        }
    });
    if let Some(first) = found.iter().min_by_key(|found| found.index) {
        print_found(seed, first);
        return false;
    }
    let rare = print_coverage(&coverage);
    println!(
        "seed {seed}: {} scenarios, {} calls, {} clocks, in shift-register mode {} bytes sent and {} received, in {} \
         seconds: no difference{}",
        coverage.scenarios,
        coverage.calls,
        coverage.clocks,
        coverage.shifted.sent,
        coverage.shifted.received,
        begun.elapsed().as_secs(),
        if rare { ", but a kind is rare" } else { "" }
    );
    !rare
}

/// Takes parts until none is left or a difference is found.
fn work(shared: &Shared) -> (Coverage, Option<Found>) {
    let mut maker = Maker::new(shared.seed);
    let mut scenario = Scenario::empty();
    let mut sides = Sides::new();
    let mut coverage = Coverage::new();
    while !shared.ended.load(Ordering::Relaxed) {
        let from = shared.next.fetch_add(PART, Ordering::Relaxed);
        if from >= shared.scenarios {
            break;
        }
        for index in from..(from + PART).min(shared.scenarios) {
            maker.make(index, &mut scenario);
            // A panic on either side is a difference too, and its scenario is to be printed.
            let checked = catch_unwind(AssertUnwindSafe(|| sides.check(&scenario, &mut coverage)));
            let panicked = |_| Err(Difference { list: 0, call: None, text: "a panic".to_string() });
            if let Err(difference) = checked.unwrap_or_else(panicked) {
                shared.ended.store(true, Ordering::Relaxed);
                return (coverage, Some(Found { index, difference }));
            }
        }
    }
    (coverage, None)
}

fn print_found(seed: u64, found: &Found) {
    let mut scenario = Scenario::empty();
    Maker::new(seed).make(found.index, &mut scenario);
    println!("seed {seed}, index {}: the sides differ", found.index);
    replay::print_scenario(&scenario);
    replay::print_difference(&found.difference);
    let program = std::env::args().next().unwrap_or_default();
    println!("in detail: {program} replay {seed} {}", found.index);
}

/// Prints the table; gives whether a kind is rare.
fn print_coverage(coverage: &Coverage) -> bool {
    let mut rare = false;
    for (text, count) in coverage.rows() {
        let too_few = coverage.scenarios >= COUNTED && count < coverage.scenarios / RAREST;
        rare |= too_few;
        println!("{count:>12}  {text}{}", if too_few { "  (rare)" } else { "" });
    }
    println!("{:>12}  clocks in the longest gap", coverage.longest_gap());
    rare
}

fn run_serial() -> bool {
    match serial::check_serial() {
        Ok(counts) => {
            println!(
                "serial channel: {} writes of SCCR, {} states of the transmitter, {} of the receiver: no difference",
                counts.writes, counts.transmitter, counts.receiver
            );
            true
        }
        Err(text) => {
            println!("serial channel: {text}");
            false
        }
    }
}

fn run_starts(scenarios: u64, seed: u64) -> bool {
    match starts::check_starts(seed, scenarios) {
        Ok(runs) => {
            println!("seed {seed}: {runs} runs from fresh, released on the first clock or never held: no difference");
            runs > 0
        }
        Err(text) => {
            println!("{text}");
            false
        }
    }
}

fn run_tapes(tapes: u64, seed: u64) -> bool {
    match tapes::check_tapes(seed, tapes) {
        Ok(counts) => {
            let numbers = tapes::NUMBERS.iter().zip(counts.numbers);
            let by_number: Vec<String> = numbers.map(|(number, count)| format!("{number}: {count}")).collect();
            println!(
                "seed {seed}: {} tapes, by number {}, loaded with right sums {} and with wrong ones {}: no difference",
                counts.numbers.iter().sum::<u64>(),
                by_number.join(", "),
                counts.right,
                counts.wrong
            );
            counts.numbers.iter().chain([&counts.right, &counts.wrong]).all(|&count| count > 0)
        }
        Err(text) => {
            println!("{text}");
            false
        }
    }
}

fn run_totals(lists: u64, seed: u64) -> bool {
    match sums::check_totals(seed, lists) {
        Ok((of_256, others)) => {
            println!("seed {seed}: totals of {of_256} page lists, {others} of another length: no difference");
            of_256 > 0 && others > 0
        }
        Err(text) => {
            println!("{text}");
            false
        }
    }
}

fn run_stretches(folder: &Path, times: u32, seed: u64) -> bool {
    let (mut stretches, mut calls) = (0, 0);
    let checked = stretches::check_stretches(folder, seed, times, |name, counts| {
        println!("{name}: {} stretches, {} calls compared", counts.stretches, counts.calls);
        stretches += counts.stretches;
        calls += counts.calls;
    });
    match checked {
        Ok(()) => {
            println!(
                "seed {seed}: firmware by {stretches} stretches, cut at every clock, {calls} calls: no difference"
            );
            stretches > 0
        }
        Err(text) => {
            println!("{text}");
            false
        }
    }
}
