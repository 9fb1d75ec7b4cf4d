//! Bytes in shift-register mode (document 02, U1): PA6 with its clock on PA4, with several latches of counter A. A
//! second chip gets both lines and receives.

use crate::{bytes, firmware, vcd, Next, LATCHES};
use r6501q::{Chip, Level, Pin, Record};
use std::error::Error;
use std::path::Path;

/// SCCR7 and SCCR5, with SCCR4 and SCCR6 set and clear, and with widths and parities, which the mode ignores.
const CONTROLS: [u8; 4] = [0xA0, 0xBF, 0xE6, 0xF9];

struct Case {
    sccr: u8,
    latch: u16,
    next: Next,
}

/// Two files for each case. Prints a line for it: its name, the clocks of a bit, whether the bytes follow each other in
/// a row or with pauses, and whether a second chip received the same bytes.
pub fn write(folder: &Path) -> Result<(), Box<dyn Error>> {
    cases().try_for_each(|case| case.write(folder).map_err(|error| format!("{}: {error}", case.name()).into()))
}

fn cases() -> impl Iterator<Item = Case> {
    let of_latch = |latch: u16| {
        let of_control = move |sccr: u8| [Next::AtOnce, Next::AfterUnderRun].map(|next| Case { sccr, latch, next });
        CONTROLS.into_iter().flat_map(of_control)
    };
    LATCHES.into_iter().flat_map(of_latch)
}

impl Case {
    fn name(&self) -> String {
        format!("{:02X}_{}_{}", self.sccr, self.latch, self.rows())
    }

    fn rows(&self) -> &'static str {
        match self.next {
            Next::AtOnce => "row",
            Next::AfterUnderRun => "pauses",
        }
    }

    /// Two ticks: "shifted at each tick that makes the phase even" (document 02, U1).
    fn clocks_per_bit(&self) -> u32 {
        2 * (u32::from(self.latch) + 1)
    }

    /// At most, a pause and the wait for a tick included.
    fn clocks_per_byte(&self) -> u32 {
        9 * self.clocks_per_bit() + firmware::PAUSE
    }

    fn write(&self, folder: &Path) -> Result<(), Box<dyn Error>> {
        let mut chip = Chip::new();
        firmware::put_sender(&mut chip.memory, self.sccr, self.latch, self.next);
        chip.release();
        chip.run(firmware::BEFORE + 256 * self.clocks_per_byte())?;
        let records = chip.take_records();
        let path = |kind: &str| folder.join(format!("{}.{kind}", self.name()));
        std::fs::write(path("vcd"), vcd::of(&[Pin::PA4, Pin::PA6], &records, chip.state.clock))?;
        std::fs::write(path("bytes"), bytes(8))?;
        let received = if self.readable() { received(&records, chip.state.clock)? } else { "unread" };
        println!("{} {} {} {received}", self.name(), self.clocks_per_bit(), self.rows());
        Ok(())
    }

    /// A byte each 16 clocks is more than a receiver's firmware can read.
    fn readable(&self) -> bool {
        self.latch > 0 || self.next == Next::AfterUnderRun
    }
}

/// What a second chip receives, whose PA4 and PA7 are the first one's PA4 and PA6 some clocks later: the same or other
/// bytes.
fn received(records: &[Record], clocks: u32) -> Result<&'static str, Box<dyn Error>> {
    let mut chip = Chip::new();
    firmware::put_shift_receiver(&mut chip.memory);
    let mut last = [Level::High; 2];
    for record in records {
        let levels = [Pin::PA4, Pin::PA6].map(|pin| record.level(pin).expect("a port pin"));
        for (i, pin) in [Pin::PA4, Pin::PA7].into_iter().enumerate() {
            if levels[i] != last[i] {
                chip.input(firmware::BEFORE + record.clock, pin, levels[i])?;
            }
        }
        last = levels;
    }
    chip.release();
    chip.run(firmware::BEFORE + clocks)?;
    let bytes = &chip.memory[firmware::RECEIVED..firmware::RECEIVED + 256];
    Ok(if bytes.iter().copied().eq(0..=255) { "same" } else { "others" })
}
