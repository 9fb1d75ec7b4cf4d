//! 01, One clock, in this order; and 01, Run and leaps, "Plain clocks ...".

use crate::accesses::Accesses;
use crate::counters::{mode_a, mode_b, step_counter_a, step_counter_b, Mode};
use crate::cpu::{opcode_started, put_on, start_on, starts_undefined, step_cpu, undefined_at_pc, Start};
use crate::pins::{apply_reset, detect_edges, driven_word, level, pin_levels, rises, set_external, PIN_RES};
use crate::serial::step_serial;
use crate::state::{State, Waiting};

/// State, memory and the lent lists, with how far they are read and written.
#[derive(Clone, PartialEq, Eq, Debug)]
pub struct World {
    pub state: State,
    pub memory: Vec<u8>,
    pub input_clocks: Vec<u32>,
    pub input_codes: Vec<u8>,
    /// Inputs read so far.
    pub read: usize,
    pub output_clocks: Vec<u32>,
    pub output_words: Vec<u32>,
    /// Records written so far.
    pub written: usize,
    /// 0, 6, 7 or 12.
    pub stop: u8,
}

/// The input that sets RES high.
pub const RES_HIGH: u8 = 64 + 33;

impl World {
    /// Document 02, U8: tests that relied on the old start "now give RES high on clock 1". Pin 33 is the highest, so
    /// the entry is the last of clock 1's; a list that sets RES on clock 1 itself gets none. The world is at clock 0,
    /// with nothing read.
    pub fn release(&mut self) {
        let behind = self.input_clocks.iter().take_while(|&&clock| clock <= 1).count();
        if self.input_codes[..behind].iter().all(|&code| code % 64 != 33) {
            self.input_clocks.insert(behind, 1);
            self.input_codes.insert(behind, RES_HIGH);
        }
    }
}

/// What steps 1 to 3 of a clock met.
#[derive(Clone, Copy, PartialEq, Eq, Debug)]
pub struct Met {
    /// Inputs of this clock.
    pub inputs: usize,
    pub levels_differ: bool,
    /// "where RES low changes any field"
    pub reset_changes: bool,
    /// The counters' modes in force in step 2.
    pub modes: (Mode, Mode),
    pub underflow_a: bool,
    pub underflow_b: bool,
}

/// What one done clock was.
#[derive(Clone, Copy, PartialEq, Eq, Debug)]
pub struct ClockReport {
    /// "An event clock is one with an input, with pin levels unlike the last ones, with an underflow, where RES low
    /// changes any field, or where the CPU starts"; document 02, U6: "A last clock with a byte waiting is an event
    /// clock."
    pub event: bool,
    pub met: Met,
    pub start: Option<Start>,
    /// The opcode, where an instruction was started.
    pub opcode: Option<u8>,
    /// The byte that was waiting and was put.
    pub put: Option<Waiting>,
    /// An undefined opcode is at PC, but RES low, wait or an entry kept it from being started.
    pub undefined_kept: bool,
    pub accesses: Accesses,
    /// A record was written.
    pub record: bool,
}

/// One plain clock: "Each, after a stop, does nothing. Where its clock meets 6, else 7, that is the stop and nothing
/// else changes. Otherwise steps 1 to 5 happen once". Document 02, U4: given a halt address, "a plain clock with such a
/// write is done, then stops with 12". Gives a report for a clock that is done.
pub fn plain(world: &mut World, halt: Option<u16>) -> Option<ClockReport> {
    if world.stop != 0 {
        return None;
    }
    let mut next = world.state.clone();
    let met = steps_1_to_3(&mut next, &world.input_clocks[world.read..], &world.input_codes[world.read..]);
    if starts_undefined(&next, &world.memory) {
        world.stop = 6;
        return None;
    }
    let start = start_on(&next);
    let opcode = opcode_started(&next, &world.memory);
    let put = put_on(&next);
    let undefined_kept = undefined_at_pc(&next, &world.memory);
    let mut accesses = Accesses::none();
    step_cpu(&mut next, &mut world.memory, &mut accesses);
    let record = driven_word(&next) != driven_word(&world.state);
    if record && world.written == world.output_clocks.len() {
        accesses.undo(&mut world.memory);
        world.stop = 7;
        return None;
    }
    if record {
        write_record(world, &next);
    }
    world.state = next;
    world.read += met.inputs;
    if halt.is_some_and(|address| accesses.writes(address)) {
        world.stop = 12;
    }
    let event = is_event(&met) || start.is_some() || put.is_some();
    Some(ClockReport { event, met, start, opcode, put, undefined_kept, accesses, record })
}

/// Whether steps 1 to 3 make an event clock.
fn is_event(met: &Met) -> bool {
    let underflow = met.underflow_a || met.underflow_b;
    met.inputs > 0 || met.levels_differ || underflow || met.reset_changes
}

/// Step 5. "One record follows each clock after which the word differs."
fn write_record(world: &mut World, next: &State) {
    world.output_clocks[world.written] = next.clock;
    world.output_words[world.written] = driven_word(next);
    world.written += 1;
}

fn steps_1_to_3(state: &mut State, clocks: &[u32], codes: &[u8]) -> Met {
    // Step 1. "Clock plus 1; inputs of that clock set external levels."
    state.clock = state.clock.wrapping_add(1);
    let inputs = read_inputs(state, clocks, codes);
    let levels = pin_levels(state);
    let levels_differ = levels != state.last;
    let risen = rises(state.last, levels);
    detect_edges(state, levels);
    let reset_changes = !level(levels, PIN_RES) && reset_changes_field(state);
    state.last = levels;
    // Step 2. "Counter A, then B."
    let modes = (mode_a(state), mode_b(state));
    let underflow_a = step_counter_a(state, risen, levels);
    let underflow_b = step_counter_b(state, risen);
    // Step 3. "Serial, at each underflow of A; that is a tick."
    step_serial(state, underflow_a, risen, levels);
    Met { inputs, levels_differ, reset_changes, modes, underflow_a, underflow_b }
}

/// Sets the external levels of the inputs of this clock and gives their number.
fn read_inputs(state: &mut State, clocks: &[u32], codes: &[u8]) -> usize {
    let mut count = 0;
    while count < clocks.len() && clocks[count] == state.clock {
        set_external(state, codes[count]);
        count += 1;
    }
    count
}

/// "where RES low changes any field": fields compared just before and after that part of step 1.
fn reset_changes_field(state: &mut State) -> bool {
    let before = state.clone();
    apply_reset(state);
    *state != before
}
