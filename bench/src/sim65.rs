// sim65 on a program: a process for the whole of it.

use std::path::{Path, PathBuf};
use std::process::{Command, Stdio};
use std::time::Duration;

use programs::sim65::outcome;

use crate::processor_time;

pub struct Sim65 {
    folder: PathBuf,
    name: &'static str,
    // What it exits with, and its length as sim65 counts it: no reset entry, and not the jump to the exit.
    pub code: u8,
    pub cycles: u32,
}

impl Sim65 {
    pub fn new(folder: &Path, name: &'static str, limit: u32) -> Result<Sim65, String> {
        let ended = outcome(folder, name, limit)?;
        Ok(Sim65 { folder: folder.to_path_buf(), name, code: ended.code, cycles: ended.cycles })
    }

    // The processor time of the process.
    pub fn run(&self) -> Result<Duration, String> {
        let (ended, time) = processor_time::of_children(|| {
            Command::new("sim65").arg(self.name).current_dir(&self.folder).stdin(Stdio::null()).status()
        });
        let status = ended.map_err(|e| format!("sim65: {e}"))?;
        if status.code() != Some(i32::from(self.code)) {
            return Err(format!("sim65 ends with {status}, not {}", self.code));
        }
        Ok(time)
    }
}
