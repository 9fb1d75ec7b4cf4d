//! Runs programs on the chip, on VICE's core and on sim65, and compares what they do.
//!
//! usage: compare [--vice] [--zero] SIM65-FOLDER CHIP-FOLDER NAME.. Each folder holds the program NAME, linked for it.
//! On the chip it runs by large pieces, by instructions beside VICE's core, and, where it is short, by single clocks;
//! with `--vice` sim65 is left out, with `--zero` the exit code must be 0. A difference is printed, and ends it with 1.

use std::path::Path;
use std::process::ExitCode;

use programs::chip::{self, Outcome, RESET_CLOCKS};
use programs::executable::Executable;
use programs::sim65::{self, Sim65};
use programs::vice::{self, Branches};

/// As cc65's own makefile has it.
const LIMIT: u32 = 200_000_000;

/// The clocks of a piece.
const PIECE: u32 = 1_000_000;

/// Programs up to so many clocks are run by single clocks too.
const BY_CLOCKS: u32 = 100_000;

/// The jump to the exit, which sim65 does not count.
const JUMP: i64 = 3;

/// What is asked of each program.
struct Asked<'a> {
    /// The programs for sim65, where it is asked.
    peers: Option<&'a Path>,
    /// Whether the exit code must be 0.
    zero: bool,
}

struct Sums {
    programs: u32,
    output: usize,
    clocks: u64,
    instructions: u64,
    opcodes: [bool; 256],
    by_clocks: u32,
    differences: u32,
}

fn main() -> ExitCode {
    let mut arguments: Vec<String> = std::env::args().skip(1).collect();
    let mut option = |name: &str| {
        let given = arguments.first().map(String::as_str) == Some(name);
        arguments.drain(..usize::from(given));
        given
    };
    let (without_sim65, zero) = (option("--vice"), option("--zero"));
    let [peers, chips, names @ ..] = &arguments[..] else {
        eprintln!("usage: compare [--vice] [--zero] SIM65-FOLDER CHIP-FOLDER NAME..");
        return ExitCode::from(2);
    };
    let peers = std::fs::canonicalize(peers).expect("a folder of programs for sim65");
    std::env::set_current_dir(chips).expect("a folder of programs for the chip");
    let asked = Asked { peers: (!without_sim65).then_some(peers.as_path()), zero };
    let mut sums = Sums {
        programs: 0,
        output: 0,
        clocks: 0,
        instructions: 0,
        opcodes: [false; 256],
        by_clocks: 0,
        differences: 0,
    };
    for name in names {
        if let Err(difference) = compare(&asked, name, &mut sums) {
            println!("{name}: {difference}");
            sums.differences += 1;
        }
        sums.programs += 1;
    }
    println!("{sums}");
    ExitCode::from(u8::from(sums.differences > 0 || sums.programs == 0))
}

impl std::fmt::Display for Sums {
    fn fmt(&self, f: &mut std::fmt::Formatter<'_>) -> std::fmt::Result {
        write!(
            f,
            "{} programs ({} by single clocks too), {} opcodes, {} instructions, {} clocks, {} bytes of output: ",
            self.programs,
            self.by_clocks,
            self.opcodes.iter().filter(|met| **met).count(),
            self.instructions,
            self.clocks,
            self.output
        )?;
        match self.differences {
            0 => write!(f, "no difference"),
            n => write!(f, "{n} differ"),
        }
    }
}

/// One program on all, or the first difference.
fn compare(asked: &Asked, name: &str, sums: &mut Sums) -> Result<(), String> {
    let file = std::fs::read(name).map_err(|e| e.to_string())?;
    let program = Executable::parse(&file)?;
    let beside = vice::beside(&program, name, LIMIT)?;
    let pieces = chip::by_runs(&program, name, PIECE, LIMIT)?;
    if beside.outcome != pieces {
        return Err("by instructions it ends otherwise than by pieces".to_string());
    }
    if asked.zero && pieces.code != 0 {
        return Err(format!("exit {}, not 0", pieces.code));
    }
    if let Some(folder) = asked.peers {
        let peer = sim65::outcome(folder, name, LIMIT)?;
        same_results(&peer, &pieces)?;
        same_clocks(&peer, &pieces, &beside.branches)?;
    }
    if pieces.state.clock <= BY_CLOCKS {
        if chip::by_clocks(&program, name, LIMIT)? != pieces {
            return Err("by single clocks it ends otherwise than by pieces".to_string());
        }
        sums.by_clocks += 1;
    }
    sums.clocks += u64::from(pieces.state.clock);
    sums.instructions += beside.instructions;
    sums.output += pieces.output.len() + pieces.errors.len();
    for (met, here) in sums.opcodes.iter_mut().zip(beside.opcodes) {
        *met |= here;
    }
    Ok(())
}

fn same_results(peer: &Sim65, chip: &Outcome) -> Result<(), String> {
    if peer.code != chip.code {
        return Err(format!("exit {}, sim65 {}", chip.code, peer.code));
    }
    same_bytes("standard output", &peer.output, &chip.output)?;
    same_bytes("standard error", &peer.errors, &chip.errors)
}

fn same_bytes(which: &str, peer: &[u8], chip: &[u8]) -> Result<(), String> {
    if peer == chip {
        return Ok(());
    }
    let same = peer.iter().zip(chip).take_while(|(a, b)| a == b).count();
    Err(format!("{which} of {} bytes differs from sim65's of {} from byte {same} on", chip.len(), peer.len()))
}

/// The chip's clocks are sim65's cycles with the reset entry, the last jump and the branches' difference.
fn same_clocks(peer: &Sim65, chip: &Outcome, branches: &Branches) -> Result<(), String> {
    let counted = i64::from(RESET_CLOCKS) + i64::from(peer.cycles) + JUMP;
    let owed = counted + i64::from(branches.longer) - i64::from(branches.shorter);
    if owed == i64::from(chip.state.clock) {
        return Ok(());
    }
    Err(format!("{} clocks, by sim65 {owed}", chip.state.clock))
}
