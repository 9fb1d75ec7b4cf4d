//! Frames: every width and parity, with several latches of counter A.

use crate::{bytes, firmware, vcd, Next, CLOCKS_PER_SECOND, LATCHES, TRANSMITTER};
use r6501q::{Chip, Frame, Parity, Pin};
use std::error::Error;
use std::path::Path;

struct Case {
    frame: Frame,
    latch: u16,
}

/// Two files for each case. Prints a line for it: its name, the bits a second, data bits, parity, and the clocks from
/// one frame to the next.
pub fn write(folder: &Path) -> Result<(), Box<dyn Error>> {
    cases().try_for_each(|case| case.write(folder).map_err(|error| format!("{}: {error}", case.name()).into()))
}

/// Every width and parity with every latch.
fn cases() -> impl Iterator<Item = Case> {
    let parities = [None, Some(Parity::Even), Some(Parity::Odd)];
    let frames = (5..=8).flat_map(move |data_bits| parities.map(|parity| Frame { data_bits, parity }));
    frames.flat_map(|frame| LATCHES.map(|latch| Case { frame, latch }))
}

impl Case {
    fn parity(&self) -> &'static str {
        match self.frame.parity {
            None => "none",
            Some(Parity::Even) => "even",
            Some(Parity::Odd) => "odd",
        }
    }

    fn name(&self) -> String {
        format!("{}_{}_{}", self.frame.data_bits, self.parity(), self.latch)
    }

    /// 16 ticks (01, Serial channel).
    fn clocks_per_bit(&self) -> u32 {
        16 * (u32::from(self.latch) + 1)
    }

    /// Start, data, parity and one stop, or two stops without parity (01, Serial channel).
    fn clocks_per_frame(&self) -> u32 {
        (1 + u32::from(self.frame.data_bits) + 2) * self.clocks_per_bit()
    }

    fn write(&self, folder: &Path) -> Result<(), Box<dyn Error>> {
        let mut chip = Chip::new();
        firmware::put_sender(&mut chip.memory, TRANSMITTER | self.frame.sccr(), self.latch, Next::AtOnce);
        chip.release();
        chip.run(firmware::BEFORE + 257 * self.clocks_per_frame())?;
        let path = |kind: &str| folder.join(format!("{}.{kind}", self.name()));
        std::fs::write(path("vcd"), vcd::of(&[Pin::PA6], &chip.take_records(), chip.state.clock))?;
        std::fs::write(path("bytes"), bytes(self.frame.data_bits))?;
        let rate = CLOCKS_PER_SECOND / f64::from(self.clocks_per_bit());
        println!("{} {rate:.0} {} {} {}", self.name(), self.frame.data_bits, self.parity(), self.clocks_per_frame());
        Ok(())
    }
}
