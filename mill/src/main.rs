//! `mill`: from a mill's firmware and path to steps, wave forms and pictures (docs/LAB.md).
#![forbid(unsafe_code)]

mod commands;
mod compare;
mod curve;
mod failure;
mod files;
mod folder;
mod image;
mod input;
mod intel_hex;
mod interrupt;
mod line;
mod merged;
mod picture;
mod plan;
mod progress;
mod rows;
mod session;
mod steps;
mod tape;
mod undefined;
mod units;
mod vcd;
mod watch;

use clap::Parser;
use commands::{run, Mill};
use failure::{Failure, Verdict};
use files::{note, print};
use std::ffi::OsString;
use std::process::ExitCode;

fn main() -> ExitCode {
    let words: Vec<OsString> = std::env::args_os().collect();
    let ended = match Mill::try_parse_from(&words) {
        Ok(mill) => mill.command.act().inspect_err(|failure| told(failure, &words)),
        Err(wrong) if wrong.use_stderr() => Err(misused(&wrong, &words)),
        Err(asked) => print(&asked.to_string()).map(|()| Verdict::Done).inspect_err(|failure| told(failure, &words)),
    };
    ExitCode::from(ended.map_or_else(|failure| failure.code(), Verdict::code))
}

/// Says why a command ends.
fn told(failure: &Failure, words: &[OsString]) {
    note(&format!("mill: {failure}"));
    if let (Failure::Usage(_), [_, command, ..]) = (failure, words) {
        note(&format!("mill help {} says how it is used", command.display()));
    }
}

/// Says what is wrong with the words of a command line. A run whose words are wrong is a refused one.
fn misused(wrong: &clap::Error, words: &[OsString]) -> Failure {
    let text = wrong.to_string();
    note(text.trim_end());
    let what = text.split("\n\n").next().unwrap_or_default().trim_start_matches("error: ");
    let failure = Failure::Usage(what.split_whitespace().collect::<Vec<_>>().join(" "));
    if let Some(folder) = run::folder_among(words) {
        run::refused(folder, &failure);
    }
    failure
}
