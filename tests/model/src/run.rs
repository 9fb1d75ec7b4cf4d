//! 01, Run and leaps; 01, What is handed back (1 to 7); document 02, U4 (12).

use crate::clock::{plain, ClockReport, World};
use crate::state::{well_formed, State};

/// 01, Machine state: "Memory: a lent slice of 65,536 bytes."
pub const MEMORY_LENGTH: usize = 65_536;

/// What a run hands back beside the world.
#[derive(Clone, Copy, PartialEq, Eq, Debug)]
pub struct Outcome {
    /// 0: all n clocks done; 1 to 5: refused; 6, 7: stopped; 12: halted, the clock of the write done.
    pub number: u8,
    pub leaps: u64,
    /// Inputs read in this run.
    pub inputs_read: usize,
    /// Records written in this run.
    pub records_written: usize,
}

/// 01, What is handed back: refusals 1 to 5 in that order, 0 if none.
pub fn refusal(
    state: &State,
    memory_length: usize,
    input_clocks: &[u32],
    input_codes: &[u8],
    output_clocks_length: usize,
    output_words_length: usize,
    n: u64,
) -> u8 {
    if memory_length != MEMORY_LENGTH {
        1
    } else if !well_formed(state) {
        2
    } else if input_clocks.len() != input_codes.len() || output_clocks_length != output_words_length {
        3
    } else if n > u64::from(u32::MAX - state.clock) {
        4
    } else if !pin_list_right(state.clock, input_clocks, input_codes) {
        5
    } else {
        0
    }
}

/// 01, Pin lists: "Clocks never fall; within one clock pins rise strictly. The first clock is above the state's."
fn pin_list_right(clock: u32, clocks: &[u32], codes: &[u8]) -> bool {
    let codes_right = codes.iter().all(|&code| code_right(code));
    let first_right = clocks.first().is_none_or(|&first| first > clock);
    let order_right = (1..clocks.len()).all(|i| in_order(clocks[i - 1], codes[i - 1], clocks[i], codes[i]));
    codes_right && first_right && order_right
}

/// "pin 0 to 31 (A0 to D7), 32 NMI, 33 RES, plus 64 where the new level is high".
fn code_right(code: u8) -> bool {
    code < 128 && code % 64 <= 33
}

fn in_order(clock: u32, code: u8, next_clock: u32, next_code: u8) -> bool {
    clock < next_clock || (clock == next_clock && code % 64 < next_code % 64)
}

/// A run of n clocks over the world: refusals first, then up to n plain clocks. It halts after the clock of a write at
/// the halt address, "given also where that clock is the run's last" (document 02, U4).
/// The lists of the call are the inputs from `read` on and the output entries from `written` on.
/// "Leaps = event clocks done, plus 1 if the last clock done isn't an event clock; 0 if no clock is done."
pub fn run(world: &mut World, n: u64, halt: Option<u16>) -> Outcome {
    run_observed(world, n, halt, |_, _, _| {})
}

/// A run that shows each done clock: the state before it, the state after it and its report.
pub fn run_observed(
    world: &mut World,
    n: u64,
    halt: Option<u16>,
    mut observe: impl FnMut(&State, &State, &ClockReport),
) -> Outcome {
    let number = refusal(
        &world.state,
        world.memory.len(),
        &world.input_clocks[world.read..],
        &world.input_codes[world.read..],
        world.output_clocks.len() - world.written,
        world.output_words.len() - world.written,
        n,
    );
    if number != 0 {
        return Outcome { number, leaps: 0, inputs_read: 0, records_written: 0 };
    }
    let (read_before, written_before) = (world.read, world.written);
    world.stop = 0;
    let mut leaps = 0;
    let mut last_was_event = true;
    for _ in 0..n {
        let before = world.state.clone();
        let Some(report) = plain(world, halt) else { break };
        observe(&before, &world.state, &report);
        leaps += u64::from(report.event);
        last_was_event = report.event;
    }
    if !last_was_event {
        leaps += 1;
    }
    Outcome {
        number: world.stop,
        leaps,
        inputs_read: world.read - read_before,
        records_written: world.written - written_before,
    }
}
