//! Whether the line and the chip's receiver fit together: looks at the state where a frame ends.
use crate::line::Line;
use crate::units::{grouped, hundredths};
use r6501q::{Frame, Parity, State};

/// The tolerance of a bit, in thousandths.
const TOLERANCE: u128 = 20;

/// Clocks from one look to the next, at most, while a frame is being received: another latch is seen soon.
const APART: u64 = 4_096;

/// Clocks that any frame takes at least behind the fall of its start bit: 5 data bits and a stop, each of 16 clocks.
const SHORTEST: u64 = 6 * 16;

/// The address of SCCR.
const SCCR: u16 = 0x0015;

/// Whether the receiver is on and takes frames: SCCR6, and not shifting (SCCR4 without SCCR5).
fn receives(state: &State) -> bool {
    let sccr = state.peripherals.control.sccr;
    sccr & 0x40 != 0 && sccr & 0x30 != 0x10
}

/// Clocks until a frame ends that is being received. The receiver looks at PA7 each second tick, and each eighth look
/// takes a bit (document 01, "Serial channel").
fn to_frame_end(state: &State) -> Option<u64> {
    let receiver = state.peripherals.receiver;
    let later_bits = u64::from(receiver.left).checked_sub(1)?;
    let looks = 8 - u64::from(receiver.subinterval.min(7)) + 8 * later_bits;
    let ticks = 2 * looks - u64::from(receiver.half.min(1));
    let counter = state.peripherals.countera;
    Some(u64::from(counter.count) + 1 + (ticks - 1) * (u64::from(counter.latch) + 1))
}

/// Whether PA7 stays high until an input changes it: neither an input nor the port latch holds it low.
fn quiet(state: &State) -> bool {
    state.external.ports & 0x80 != 0 && state.peripherals.ports.a & 0x80 != 0
}

/// When to look next.
#[derive(Clone, Copy, PartialEq, Eq, Debug)]
pub struct Look {
    pub clock: u64,
    /// Whether a frame ends on that clock.
    pub frame_end: bool,
    /// The address at whose write to look before that clock.
    pub halt: Option<u16>,
}

/// The next look: a frame's end, if one is being received; else before one can end.
///
/// No frame ends between two looks. A held chip receives nothing, and an input releases it. A receiver that is off is
/// turned on by a write to SCCR alone, and that write is itself a look; so are those that change the frame's form or
/// turn it off. A receiver that waits takes a start bit where PA7 falls, by an input, and no frame is over within
/// `SHORTEST` clocks of that, whatever the latch is by then. A frame that is being received ends when counter A has
/// made its ticks. Two things are left that only a strange firmware does: to shorten latch A in the midst of a frame,
/// and to pull PA7 low by its own port latch while it receives.
pub fn next_look(state: &State, now: u64, next_input: Option<u64>) -> Look {
    let at = |clock| Look { clock, frame_end: false, halt: Some(SCCR) };
    let input = next_input.map_or(u64::MAX, |clock| clock.max(now + 1));
    if state.external.res == 0 {
        return Look { halt: None, ..at(input) };
    }
    if !receives(state) {
        return at(u64::MAX);
    }
    match to_frame_end(state) {
        Some(clocks) if clocks <= APART => Look { frame_end: true, ..at(now + clocks) },
        Some(_) => at(now + APART),
        None if quiet(state) => at(input.saturating_add(SHORTEST - 1)),
        None => at(now + SHORTEST),
    }
}

/// What a watch has seen.
pub struct Watch<'a> {
    line: Option<&'a Line>,
    /// Settings of the receiver that were looked at: latch A and SCCR.
    seen: Vec<(u16, u8)>,
    /// What was found, each once, with its first clock.
    pub warnings: Vec<String>,
    /// Frames that the receiver took.
    pub frames: u64,
    /// Of them, those at whose end SCSR showed overrun, parity, framing (SCSR1, 2, 3).
    pub faults: [u64; 3],
}

/// SCSR1 to SCSR3.
pub const FAULTS: [&str; 3] = ["overrun", "parity", "framing"];

impl<'a> Watch<'a> {
    /// A watch over a line; none: there is no path, and bits are not compared.
    pub fn over(line: Option<&'a Line>) -> Watch<'a> {
        Watch { line, seen: Vec::new(), warnings: Vec::new(), frames: 0, faults: [0; 3] }
    }

    /// A look where the path begins.
    pub fn path_begins(&mut self, state: &State, clock: u64) {
        if receives(state) {
            self.compare(state, clock);
        } else {
            let sccr = state.peripherals.control.sccr;
            self.warn(clock, format!("the path begins, and the receiver is not on for frames (SCCR {sccr:02X}h)"));
        }
    }

    /// A look where a frame ends.
    pub fn frame_ends(&mut self, state: &State, clock: u64) {
        if state.peripherals.receiver.left != 0 || !receives(state) {
            return; // another latch made it longer, or RES cut it off
        }
        self.frames += 1;
        self.compare(state, clock);
        let scsr = state.peripherals.control.scsr;
        for (place, fault) in FAULTS.iter().enumerate().filter(|(place, _)| scsr >> (place + 1) & 1 == 1) {
            if self.faults[place] == 0 {
                self.warn(clock, format!("SCSR shows {fault} (SCSR {scsr:02X}h)"));
            }
            self.faults[place] += 1;
        }
    }

    /// The run's end: a path that was not sent to its end, or of which the receiver did not take each frame.
    pub fn run_ends(&mut self, clock: u64, path_end: u64, sent: u64) {
        if clock < path_end {
            self.warn(clock, format!("the run ends before the path, which goes to clock {}", grouped(path_end)));
        } else if self.frames != sent {
            let (taken, sent) = (grouped(self.frames), grouped(sent));
            self.warn(clock, format!("the run ends, and the receiver took {taken} frames where {sent} were sent"));
        }
    }

    fn warn(&mut self, clock: u64, words: String) {
        self.warnings.push(format!("clock {}: {words}", grouped(clock)));
    }

    /// The line's frames beside the receiver's, once for each setting.
    fn compare(&mut self, state: &State, clock: u64) {
        let Some(line) = self.line else { return };
        let setting = (state.peripherals.countera.latch, state.peripherals.control.sccr);
        if self.seen.contains(&setting) {
            return;
        }
        self.seen.push(setting);
        if let Some(words) = unlike_bits(line, setting.0) {
            self.warn(clock, words);
        }
        if frame_of(setting.1) != line.frame {
            let (sent, taken) = (form(line.frame), form(frame_of(setting.1)));
            self.warn(clock, format!("the line sends {sent}, the receiver takes {taken} (SCCR {:02X}h)", setting.1));
        }
    }
}

/// What is said where the line's bit and the chip's differ by more than the tolerance, by the formula of `mill latch`.
pub fn unlike_bits(line: &Line, latch: u16) -> Option<String> {
    let chip = 16 * (u128::from(latch) + 1);
    let (rate, made) = (u128::from(line.rate), chip * u128::from(line.baud));
    let off = rate.abs_diff(made);
    if off * 1_000 <= TOLERANCE * made {
        return None;
    }
    let (bit, percent) = (line.bit_clocks(), hundredths(100 * off, made));
    let side = if rate > made { "fast" } else { "slow" };
    let bits = format!("a bit of the line is {bit} clocks, of the chip {chip} (latch A {latch:04X}h)");
    Some(format!("{bits}: the chip is {percent}% too {side}"))
}

/// The frame that SCCR sets.
fn frame_of(sccr: u8) -> Frame {
    let parity = match sccr & 3 {
        2 => Some(Parity::Odd),
        3 => Some(Parity::Even),
        _ => None,
    };
    Frame { data_bits: 8 - (sccr >> 2 & 3), parity }
}

fn form(frame: Frame) -> String {
    let parity = match frame.parity {
        None => "no",
        Some(Parity::Even) => "even",
        Some(Parity::Odd) => "odd",
    };
    format!("{} data bits with {parity} parity", frame.data_bits)
}

#[cfg(test)]
mod tests {
    use super::*;
    use crate::failure::Failure;
    use crate::input::{list, Input};
    use crate::merged::Merged;
    use crate::session::{Session, Sink, Sizes};
    use r6501q::MEMORY_LENGTH;

    struct Nobody;

    impl Sink for Nobody {
        fn input(&mut self, _: Input) -> Result<(), Failure> {
            Ok(())
        }

        fn record(&mut self, _: u64, _: u32) -> Result<(), Failure> {
            Ok(())
        }
    }

    /// Sets latch A and SCCR, and reads each byte at once by polling IFR, which clears SCSR0 to SCSR3; or never reads.
    fn receiver(latch: u8, sccr: u8, reads: bool) -> Vec<u8> {
        let mut memory = vec![0; MEMORY_LENGTH];
        #[rustfmt::skip]
        let program = [
            0xA9, latch, // LDA #
            0x85, 0x18, // STA 18h
            0xA9, 0x00, // LDA #00h
            0x85, 0x1A, // STA 1Ah
            0xA9, sccr, // LDA #
            0x85, 0x15, // STA SCCR
            0x6F, 0x11, 0xFD, // BBR6 IFR, here
            if reads { 0xA5 } else { 0xA2 }, 0x17, // LDA 17h, or LDX #17h
            0x4C, 0x0C, 0x02, // JMP to BBR6
        ];
        memory[0x0200..0x0200 + program.len()].copy_from_slice(&program);
        memory[0xFFFD] = 2;
        memory
    }

    fn line(baud: u32) -> Line {
        Line { rate: 1_000_000, baud, frame: Frame::EIGHT_BITS, stops: 2, start: 2_000, every: None }
    }

    fn watched(line: &Line, memory: Vec<u8>, path: &[u8]) -> (Vec<String>, u64, [u64; 3]) {
        watched_with("1,RES,1", line, memory, path)
    }

    fn watched_with(others: &str, line: &Line, memory: Vec<u8>, path: &[u8]) -> (Vec<String>, u64, [u64; 3]) {
        let inputs = Merged::of(line.inputs(path), list(others).unwrap().into_iter());
        let mut session = Session::fresh(memory, inputs, Sizes::default());
        let mut watch = Watch::over(Some(line));
        let path_end = line.end(path.len() as u64).unwrap();
        let end = path_end + 5_000;
        session.advance(line.start, None, &mut Nobody).unwrap();
        watch.path_begins(session.state(), line.start);
        while session.now() < end {
            let next_input = session.next_input();
            let look = next_look(session.state(), session.now(), next_input);
            assert!(look.clock > session.now());
            session.advance(look.clock.min(end), look.halt, &mut Nobody).unwrap();
            if look.frame_end && look.clock == session.now() {
                watch.frame_ends(session.state(), look.clock);
            }
        }
        watch.run_ends(session.now(), path_end, path.len() as u64);
        (watch.warnings, watch.frames, watch.faults)
    }

    #[test]
    fn every_frame_is_looked_at_where_it_ends() {
        let path: Vec<u8> = (0..200).collect();
        let good = watched(&line(4_800), receiver(12, 0x40, true), &path);
        assert_eq!(good, (vec![], 200, [0, 0, 0]));
        let fast = watched(&line(62_500), receiver(0, 0x40, true), &path);
        assert_eq!(fast, (vec![], 200, [0, 0, 0]));
    }

    #[test]
    fn a_frame_right_behind_a_reset_is_counted() {
        // The receiver is off until the firmware turns it on again; the sixth frame begins on clock 22,000.
        for (baud, latch) in [(4_800, 12), (62_500, 0)] {
            let line = Line { every: Some(4_000), ..line(baud) };
            for released in [21_000, 21_500, 21_900] {
                let others = format!("1,RES,1\n20900,RES,0\n{released},RES,1");
                let good = watched_with(&others, &line, receiver(latch, 0x40, true), &[0x55; 10]);
                assert_eq!(good, (vec![], 10, [0, 0, 0]), "{baud} {released}");
            }
        }
    }

    #[test]
    fn a_frame_that_is_cut_off_by_a_reset_is_not_counted() {
        let line = Line { every: Some(4_000), ..line(4_800) };
        for released in [23_100, 24_100, 25_900] {
            let others = format!("1,RES,1\n23000,RES,0\n{released},RES,1");
            let (warnings, frames, _) = watched_with(&others, &line, receiver(12, 0x40, true), &[0xFF; 10]);
            assert_eq!((warnings.len(), frames), (1, 9), "{released}: {warnings:?}");
        }
    }

    #[test]
    fn a_line_of_another_rate_is_said() {
        let (warnings, _, _) = watched(&line(9_600), receiver(6, 0x40, true), &[0x55; 20]);
        let bits = "clock 2,000: a bit of the line is 104.17 clocks, of the chip 112 (latch A 0006h)";
        assert_eq!(warnings[0], format!("{bits}: the chip is 6.99% too slow"));
        assert_eq!(unlike_bits(&line(4_800), 12), None);
        assert_eq!(unlike_bits(&line(9_400), 5).unwrap().split(": ").nth(1), Some("the chip is 10.82% too fast"));
    }

    #[test]
    fn faults_of_frames_are_counted_where_the_firmware_clears_them_at_once() {
        // A stop bit that is low: the line sends 8 data bits and the receiver takes 7.
        let (warnings, _, faults) = watched(&line(4_800), receiver(12, 0x44, true), &[0x00; 10]);
        assert_eq!(faults, [0, 0, 10]);
        assert!(warnings[0].ends_with(
            "the line sends 8 data bits with no parity, the receiver takes 7 data bits with no parity (SCCR 44h)"
        ));
        assert!(warnings[1].ends_with("SCSR shows framing (SCSR 48h)"), "{warnings:?}");
        // Odd parity for even.
        let even = Frame { data_bits: 8, parity: Some(Parity::Even) };
        let even = Line { frame: even, stops: 1, ..line(4_800) };
        let (warnings, frames, faults) = watched(&even, receiver(12, 0x42, true), &[0x01; 10]);
        assert_eq!((warnings.len(), frames, faults), (2, 10, [0, 10, 0]));
        // Bytes that nobody reads.
        let (_, frames, faults) = watched(&line(4_800), receiver(12, 0x40, false), &[0x01; 10]);
        assert_eq!((frames, faults), (10, [9, 0, 0]));
    }

    #[test]
    fn a_receiver_that_is_off_or_shifts_is_said() {
        for sccr in [0x00, 0x80, 0x50] {
            let (warnings, frames, _) = watched(&line(4_800), receiver(12, sccr, true), &[0x01; 3]);
            assert!(warnings[0].contains("the receiver is not on for frames"), "{warnings:?}");
            assert_eq!(frames, 0);
        }
    }
}
