//! The library and the model side by side: a call on both, and all that demand 3 names compared after it.

use crate::compare::list_difference;
use differential::convert::{first_difference, library_state};
use differential::firmware::Inputs;
use plain_clock::sums::{page_sums, run_with_sums, PAGES};
use plain_clock::{run, Outcome, World};
use r6501q::CallResult;

#[derive(Clone, Copy, PartialEq, Eq, Debug)]
pub enum Call {
    Step,
    Run(u32),
}

/// Both sides after the same calls. The model goes by plain clocks and takes nothing that a call gives back.
pub struct Pair {
    pub world: World,
    library: Library,
    /// The calls made, that were compared.
    pub calls: u64,
}

/// The library's side. Its inputs are the model's, which no call changes.
struct Library {
    state: r6501q::State,
    memory: Vec<u8>,
    read: usize,
    written: usize,
    output_clocks: Vec<u32>,
    output_words: Vec<u32>,
}

fn copy<T: Copy>(to: &mut Vec<T>, from: &[T]) {
    to.clear();
    to.extend_from_slice(from);
}

impl Pair {
    /// Fresh and released, with no output space.
    pub fn new(memory: Vec<u8>, inputs: Inputs) -> Pair {
        let mut world = World {
            state: plain_clock::fresh(),
            memory,
            input_clocks: inputs.0,
            input_codes: inputs.1,
            read: 0,
            output_clocks: Vec::new(),
            output_words: Vec::new(),
            written: 0,
            stop: 0,
        };
        world.release();
        let library = Library {
            state: library_state(&world.state),
            memory: world.memory.clone(),
            read: 0,
            written: 0,
            output_clocks: Vec::new(),
            output_words: Vec::new(),
        };
        Pair { world, library, calls: 0 }
    }

    pub fn clock(&self) -> u32 {
        self.world.state.clock
    }

    /// Makes this pair what another is; the calls made stay its own.
    pub fn copy_from(&mut self, other: &Pair) {
        let (to, from) = (&mut self.world, &other.world);
        to.state = from.state.clone();
        copy(&mut to.memory, &from.memory);
        copy(&mut to.input_clocks, &from.input_clocks);
        copy(&mut to.input_codes, &from.input_codes);
        copy(&mut to.output_clocks, &from.output_clocks);
        copy(&mut to.output_words, &from.output_words);
        (to.read, to.written, to.stop) = (from.read, from.written, from.stop);
        let (to, from) = (&mut self.library, &other.library);
        copy(&mut to.memory, &from.memory);
        copy(&mut to.output_clocks, &from.output_clocks);
        copy(&mut to.output_words, &from.output_words);
        (to.state, to.read, to.written) = (from.state, from.read, from.written);
    }

    /// Drops the inputs read and the records written; both sides have as many.
    pub fn drop_past(&mut self) {
        let (world, library) = (&mut self.world, &mut self.library);
        world.input_clocks.drain(..world.read);
        world.input_codes.drain(..world.read);
        world.output_clocks.drain(..world.written);
        world.output_words.drain(..world.written);
        library.output_clocks.drain(..library.written);
        library.output_words.drain(..library.written);
        (world.read, world.written) = (0, 0);
        (library.read, library.written) = (0, 0);
    }

    /// Keeps the unread inputs up to a clock, and a few later ones, which stay unread.
    pub fn keep_inputs(&mut self, to: u32) {
        let world = &mut self.world;
        let kept = world.input_clocks.partition_point(|&clock| clock <= to) + LATER_INPUTS;
        world.input_clocks.truncate(kept);
        world.input_codes.truncate(kept);
    }

    /// So many free output entries, each of another content.
    pub fn set_free(&mut self, free: usize) {
        let entries = self.world.written + free;
        for (clocks, words) in [
            (&mut self.world.output_clocks, &mut self.world.output_words),
            (&mut self.library.output_clocks, &mut self.library.output_words),
        ] {
            let (from, content) = (clocks.len().min(entries) as u32, |i: u32| i.wrapping_mul(0x9E37_79B9));
            clocks.truncate(entries);
            words.truncate(entries);
            clocks.extend((from..entries as u32).map(content));
            words.extend((from..entries as u32).map(|i| !content(i)));
        }
    }

    /// One call on both sides; gives what it comes to, or what differs.
    pub fn call(&mut self, call: Call, halt: Option<u16>) -> Result<Outcome, String> {
        let result = self.library.call(&self.world, call, halt, None);
        let outcome = run(&mut self.world, u64::from(call.clocks()), halt);
        self.compare(call, &result, outcome)
    }

    /// One call with right page sums on both sides.
    pub fn call_with_sums(&mut self, call: Call, halt: Option<u16>) -> Result<Outcome, String> {
        let mut sums = page_sums(&self.world.memory).map(|sum| sum as u16);
        let mut model = sums;
        let result = self.library.call(&self.world, call, halt, Some(&mut sums));
        let outcome = run_with_sums(&mut self.world, &mut model, u64::from(call.clocks()), halt);
        match list_difference("sums", &sums, &model) {
            Some(text) => Err(format!("{call:?}: {text}")),
            None => self.compare(call, &result, outcome),
        }
    }

    fn compare(&mut self, call: Call, result: &CallResult, outcome: Outcome) -> Result<Outcome, String> {
        self.calls += 1;
        let (world, library) = (&self.world, &self.library);
        let model = (outcome.number, outcome.leaps, outcome.inputs_read, outcome.records_written);
        let told = (u8::from(result.number), u64::from(result.leaps), result.read, result.written);
        let different = (told != model)
            .then(|| format!("number, leaps, inputs read, records written: library {told:?}, model {model:?}"))
            .or_else(|| first_difference(&library.state, &library_state(&world.state)))
            .or_else(|| list_difference("memory", &library.memory, &world.memory))
            .or_else(|| list_difference("output clocks", &library.output_clocks, &world.output_clocks))
            .or_else(|| list_difference("output words", &library.output_words, &world.output_words));
        match different {
            Some(text) => Err(format!("{call:?}, after it clock {}: {text}", world.state.clock)),
            None => Ok(outcome),
        }
    }
}

/// Inputs behind a stretch that its calls are lent.
const LATER_INPUTS: usize = 5;

impl Call {
    fn clocks(self) -> u32 {
        match self {
            Call::Step => 1,
            Call::Run(n) => n,
        }
    }
}

impl Library {
    /// The call gets what the last one left or handed on.
    fn call(&mut self, lent: &World, call: Call, halt: Option<u16>, sums: Option<&mut [u16; PAGES]>) -> CallResult {
        let (state, memory) = (self.state, &mut self.memory[..]);
        let (clocks, codes) = (&lent.input_clocks[self.read..], &lent.input_codes[self.read..]);
        let (times, words) = (&mut self.output_clocks[self.written..], &mut self.output_words[self.written..]);
        let result = match (call, sums) {
            (Call::Step, None) => r6501q::step(state, memory, clocks, codes, times, words, halt),
            (Call::Run(n), None) => r6501q::run(state, memory, clocks, codes, times, words, n, halt),
            (Call::Step, Some(sums)) => r6501q::step_with_sums(state, memory, sums, clocks, codes, times, words, halt),
            (Call::Run(n), Some(sums)) => {
                r6501q::run_with_sums(state, memory, sums, clocks, codes, times, words, n, halt)
            }
        };
        self.state = result.state;
        self.read += result.read;
        self.written += result.written;
        result
    }
}
