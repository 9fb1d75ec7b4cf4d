//! A program on cc65's simulator of a 6502, `sim65`.

use std::path::Path;
use std::process::{Command, Output, Stdio};

/// What a program comes to on sim65.
pub struct Sim65 {
    pub code: u8,
    pub output: Vec<u8>,
    pub errors: Vec<u8>,
    /// As `sim65 -c` counts them: no reset entry, and not the jump to the exit.
    pub cycles: u32,
}

/// Runs a program in its folder, with an empty standard input, for at most `limit` cycles. With `-c` sim65 puts the
/// count behind the program's own output, so it runs once without and once with it.
pub fn outcome(folder: &Path, name: &str, limit: u32) -> Result<Sim65, String> {
    let plain = simulate(folder, name, limit, &[])?;
    let counted = simulate(folder, name, limit, &["-c"])?;
    let cycles = counted
        .stdout
        .strip_prefix(&plain.stdout[..])
        .and_then(cycles)
        .ok_or_else(|| format!("sim65: {}", String::from_utf8_lossy(&counted.stderr).trim_end()))?;
    let code = plain.status.code().ok_or("sim65 was killed")?;
    Ok(Sim65 { code: code as u8, output: plain.stdout, errors: plain.stderr, cycles })
}

fn simulate(folder: &Path, name: &str, limit: u32, options: &[&str]) -> Result<Output, String> {
    Command::new("sim65")
        .args(options)
        .args(["-x", &limit.to_string(), name])
        .current_dir(folder)
        .stdin(Stdio::null())
        .output()
        .map_err(|e| format!("sim65: {e}"))
}

/// The count in the line `.. cycles`.
fn cycles(line: &[u8]) -> Option<u32> {
    std::str::from_utf8(line).ok()?.strip_suffix(" cycles\n")?.parse().ok()
}
