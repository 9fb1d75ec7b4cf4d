//! The bar that a run shows on a terminal.
use indicatif::{ProgressBar, ProgressDrawTarget, ProgressState, ProgressStyle};
use std::fmt;
use std::time::Duration;

/// Drawings a second, at most.
const DRAWINGS: u8 = 5;

/// A bar on standard error; nothing where that is no terminal.
pub struct Progress {
    bar: ProgressBar,
}

impl Progress {
    /// For a run of so many clocks.
    pub fn to(end: u64, rate: u32) -> Progress {
        let bar = ProgressBar::with_draw_target(Some(end), ProgressDrawTarget::stderr_with_hz(DRAWINGS));
        bar.set_style(style(rate));
        Progress { bar }
    }

    /// Draws the bar if it is time to.
    pub fn at(&self, clock: u64) {
        self.bar.set_position(clock);
    }

    /// Takes the bar away.
    pub fn end(&self) {
        self.bar.finish_and_clear();
    }
}

/// A bar as wide as the terminal leaves it, and the words behind it.
fn style(rate: u32) -> ProgressStyle {
    let words = move |state: &ProgressState, out: &mut dyn fmt::Write| {
        let words = words(state.pos(), state.len().unwrap_or(0), f64::from(rate), state.elapsed());
        let _ = out.write_str(&words); // a text takes all
    };
    let style = ProgressStyle::with_template("[{wide_bar}] {words}").unwrap_or_else(|_| ProgressStyle::default_bar());
    style.with_key("words", words).progress_chars("#..")
}

/// The mill's seconds; how much faster than the mill it goes, and the time left, as soon as that is known. The speed is
/// that of the whole run so far: indicatif's own, of the last few drawings, goes up and down with the chip's work.
fn words(clock: u64, end: u64, rate: f64, taken: Duration) -> String {
    let (done, all) = (clock as f64 / rate, end as f64 / rate);
    let taken = taken.as_secs_f64();
    let speed = if taken > 0.0 { done / taken } else { 0.0 };
    let known = format!(", {speed:.1} times its speed, {:.0} s left", (all - done) / speed);
    let known = if speed > 0.0 { known } else { String::new() };
    format!("{done:.1} of {all:.1} s of the mill{known}")
}

#[cfg(test)]
mod tests {
    use super::*;

    #[test]
    fn a_bar_has_seconds_speed_and_time_left() {
        let half = words(30_000_000, 60_000_000, 1e6, Duration::from_secs(3));
        assert_eq!(half, "30.0 of 60.0 s of the mill, 10.0 times its speed, 3 s left");
        assert_eq!(words(0, 60_000_000, 1e6, Duration::from_millis(1)), "0.0 of 60.0 s of the mill");
        assert_eq!(words(0, 0, 1e6, Duration::ZERO), "0.0 of 0.0 s of the mill");
    }
}
