//! The serial channel from end to end: every write of SCCR over every value, and every progress of either half with
//! every value. Each is a short run on both sides, from a state that is made for it.

use differential::convert::{first_difference, library_state};
use plain_clock::pins::pin_levels;
use plain_clock::state::ALL_PINS;
use plain_clock::{fresh, run, Receiver, State, Transmitter, Waiting, World};

/// More records than one of these runs makes.
const RECORDS: usize = 16;

const PA4_LOW: u8 = 0x04;
const PA4_HIGH: u8 = 0x44;
const PA7_LOW: u8 = 0x07;
const PA7_HIGH: u8 = 0x47;

/// How many runs there were of each kind.
pub struct Counts {
    pub writes: u64,
    pub transmitter: u64,
    pub receiver: u64,
}

/// All of them, or the first on which the sides differ.
pub fn check_serial() -> Result<Counts, String> {
    let mut sides = Sides::new();
    Ok(Counts { writes: writes(&mut sides)?, transmitter: transmitter(&mut sides)?, receiver: receiver(&mut sides)? })
}

/// SCCR put over each value on the first clock, both halves having progress; with A in each mode, PA4's latch 0 and 1,
/// and a rise of PA4 behind it.
fn writes(sides: &mut Sides) -> Result<u64, String> {
    let inputs = [(4, PA4_LOW), (5, PA4_HIGH)];
    let mut count = 0;
    for (before, value) in (0..=255).flat_map(|before| (0..=255u8).map(move |value| (before, value))) {
        for variant in 0..8u8 {
            let state = State {
                wait: 1,
                waiting: Some(Waiting { address: 0x15, value }),
                sccr: before,
                mcr: variant & 3,
                ports: [if variant & 4 != 0 { 0xFF } else { 0xEF }, 0xFF, 0xFF, 0xFF],
                scsr: if variant & 2 != 0 { 0x40 } else { 0x00 },
                data_sent: 0x5A,
                transmitter: Transmitter {
                    bits_left: 1 + (value ^ before) % 12,
                    phase: (before ^ variant) & 15,
                    register: 0xA5A,
                },
                receiver: Receiver {
                    sub_interval: 3,
                    half: 1,
                    bits_left: 1 + value.wrapping_add(before) % 11,
                    register: 0x2AA,
                },
                ..quick(u16::from(variant & 1))
            };
            sides.check(state, &inputs, 6)?;
            count += 1;
        }
    }
    Ok(count)
}

/// Ticks with each progress; data waiting or none, PA4's latch 0 and 1.
fn transmitter(sides: &mut Sides) -> Result<u64, String> {
    let mut count = 0;
    for (sccr, bits_left) in (0..=255).flat_map(|sccr| (0..=12).map(move |bits_left| (sccr, bits_left))) {
        for (phase, variant) in (0..=15).flat_map(|phase| (0..4u8).map(move |variant| (phase, variant))) {
            let register = [0x000, 0xFFF, 0xA5A, 0x5A5][usize::from(variant)];
            let state = State {
                wait: 6,
                sccr,
                ports: [if variant & 2 != 0 { 0xFF } else { 0x00 }; 4],
                scsr: if variant & 1 != 0 { 0x40 } else { 0xA0 },
                data_sent: 0xC3,
                transmitter: Transmitter { bits_left, phase, register },
                ..quick(u16::from(variant >> 1))
            };
            sides.check(state, &[], 6)?;
            count += 1;
        }
    }
    Ok(count)
}

/// Two rises of PA4 with each progress; PA7 low and high, SCSR0 and SCSR2 clear and set, A in each mode, a tick on the
/// first rise or not.
fn receiver(sides: &mut Sides) -> Result<u64, String> {
    let falls = [(1, PA4_HIGH), (2, PA4_LOW), (2, PA7_LOW), (3, PA4_HIGH)];
    let rises = [(1, PA4_HIGH), (1, PA7_HIGH), (2, PA4_LOW), (3, PA4_HIGH)];
    let mut count = 0;
    for (sccr, bits_left) in (0..=255).flat_map(|sccr| (0..=11).map(move |bits_left| (sccr, bits_left))) {
        for (sub_interval, variant) in (0..=7).flat_map(|sub| (0..128u8).map(move |variant| (sub, variant))) {
            let low = if variant & 1 != 0 { 0x10 } else { 0x90 };
            let state = State {
                wait: 6,
                sccr,
                mcr: variant >> 4 & 3,
                scsr: 0x40 | variant >> 1 & 1 | variant & 4,
                counter_a: u16::from(variant >> 3 & 1),
                receiver: Receiver { sub_interval, half: variant & 1, bits_left, register: 0x5A5 },
                external: ALL_PINS & !low,
                ..quick(2)
            };
            sides.check(state, if variant & 64 != 0 { &falls } else { &rises }, 3)?;
            count += 1;
        }
    }
    Ok(count)
}

/// An idle CPU, and counter A about to underflow; RES is high.
fn quick(latch_a: u16) -> State {
    State { reset_due: false, counter_a: 0, latch_a, external: ALL_PINS, ..fresh() }
}

/// Both sides with the same memory, NOP alone.
struct Sides {
    memory: Vec<u8>,
    world: World,
}

impl Sides {
    fn new() -> Self {
        let memory = vec![0xEA; plain_clock::run::MEMORY_LENGTH];
        let world = World {
            state: fresh(),
            memory: memory.clone(),
            input_clocks: Vec::new(),
            input_codes: Vec::new(),
            read: 0,
            output_clocks: Vec::new(),
            output_words: Vec::new(),
            written: 0,
            stop: 0,
        };
        Sides { memory, world }
    }

    /// One run from a state whose last levels are those that its pins have.
    fn check(&mut self, state: State, inputs: &[(u32, u8)], clocks: u32) -> Result<(), String> {
        let state = State { last: pin_levels(&state), ..state };
        let world = &mut self.world;
        world.state = state.clone();
        world.input_clocks = inputs.iter().map(|input| input.0).collect();
        world.input_codes = inputs.iter().map(|input| input.1).collect();
        world.output_clocks = vec![0; RECORDS];
        world.output_words = vec![0; RECORDS];
        (world.read, world.written, world.stop) = (0, 0, 0);
        let (mut output_clocks, mut output_words) = (vec![0; RECORDS], vec![0; RECORDS]);
        let result = r6501q::run(
            library_state(&state),
            &mut self.memory,
            &world.input_clocks,
            &world.input_codes,
            &mut output_clocks,
            &mut output_words,
            clocks,
            None,
        );
        let outcome = run(world, u64::from(clocks), None);
        let counts = (u64::from(result.leaps), result.read, result.written);
        let different = first_difference(&result.state, &library_state(&world.state)).or_else(|| {
            let same = u8::from(result.number) == outcome.number
                && counts == (outcome.leaps, outcome.inputs_read, outcome.records_written)
                && (&output_clocks, &output_words) == (&world.output_clocks, &world.output_words);
            (!same).then(|| "number, counts or records".to_string())
        });
        match different {
            Some(text) => Err(format!("{text}\nfrom {state:X?}\ninputs {inputs:X?}, {clocks} clocks")),
            None => Ok(()),
        }
    }
}
