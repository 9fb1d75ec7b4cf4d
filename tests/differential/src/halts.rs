//! Halt addresses (document 02, U4), mostly such as the scenario's code writes, and lists of calls that end right
//! before, on or behind the clock of the write.

use crate::random::Random;
use crate::scenario::{call, free_entries, Call, List, Scenario, Theme};
use plain_clock::accesses::AccessKind;
use plain_clock::{fresh, plain, World};

/// The most clocks that a survey looks at.
const MOST_CLOCKS: u32 = 5_000;

/// More records than so many clocks make.
const SPACE: usize = MOST_CLOCKS as usize + 1;

/// One write.
#[derive(Clone, Copy, PartialEq, Eq, Debug)]
struct Write {
    address: u16,
    /// Clocks from the start, its own one included.
    clocks: u32,
    /// Records made before its clock.
    records: usize,
    /// Whether its clock makes a record.
    recorded: bool,
}

/// What a scenario's clocks write, seen on the model's side with no halt address and space for every record.
pub struct Survey {
    world: World,
    writes: Vec<Write>,
}

impl Survey {
    pub fn new() -> Self {
        let world = World {
            state: fresh(),
            memory: Vec::new(),
            input_clocks: Vec::new(),
            input_codes: Vec::new(),
            read: 0,
            output_clocks: vec![0; SPACE],
            output_words: vec![0; SPACE],
            written: 0,
            stop: 0,
        };
        Survey { world, writes: Vec::new() }
    }

    /// Up to so many clocks of a scenario that is not damaged.
    fn look(&mut self, scenario: &Scenario, clocks: u32) {
        let world = &mut self.world;
        world.state = scenario.state.clone();
        world.memory.clone_from(&scenario.memory);
        world.input_clocks.clone_from(&scenario.input_clocks);
        world.input_codes.clone_from(&scenario.input_codes);
        (world.read, world.written, world.stop) = (0, 0, 0);
        self.writes.clear();
        let most = clocks.min(MOST_CLOCKS).min(u32::MAX - scenario.state.clock);
        for clocks in 1..=most {
            let records = world.written;
            let Some(report) = plain(world, None) else { break };
            let writes = report.accesses.list().iter().filter(|access| access.kind == AccessKind::Write);
            let recorded = report.record;
            self.writes.extend(writes.map(|access| Write { address: access.address, clocks, records, recorded }));
        }
    }

    /// Some write, and the first one at its address.
    fn first_write(&self, random: &Random) -> Option<Write> {
        let any = match self.writes.len() as u32 {
            0 => return None,
            length => self.writes[random.below(length) as usize],
        };
        self.writes.iter().find(|write| write.address == any.address).copied()
    }

    /// Puts halt addresses into a scenario, and lists of calls that follow where one ends with a stop.
    pub fn fill(&mut self, random: &Random, scenario: &mut Scenario, budget: u32) {
        match scenario.theme {
            Theme::Held | Theme::LongGaps => self.writes.clear(),
            Theme::HugeCount => self.look(scenario, 40),
            _ => self.look(scenario, budget),
        }
        scenario.lists[0].halt = match random.below(20) {
            0..=7 => None,
            8..=10 => Some(guess(random, scenario)),
            _ => match self.first_write(random) {
                Some(write) => {
                    fit_outputs(random, scenario, write);
                    fit_calls(random, scenario, write, budget);
                    Some(write.address)
                }
                None => Some(guess(random, scenario)),
            },
        };
        for _ in 0..random.below(3) {
            self.add_list(random, scenario, budget);
        }
    }

    /// A list for after a stop: mostly with the address of the one before, and with some entries more.
    fn add_list(&self, random: &Random, scenario: &mut Scenario, budget: u32) {
        let halt = match random.below(10) {
            0..=4 => scenario.lists[scenario.lists.len() - 1].halt,
            5 => None,
            6..=8 => self.first_write(random).map(|write| write.address),
            _ => Some(guess(random, scenario)),
        };
        let space = random.pick(&[0, 1, 1, 2, 64]);
        let most = random.pick(&[1, 2, 4, 8]);
        let calls = (0..most).map(|_| call(random, scenario.state.clock, budget)).collect();
        scenario.lists.push(List { halt, space, calls });
    }
}

/// An address that may be written: the stack's, a register's, the code's, an end of the memory or any.
fn guess(random: &Random, scenario: &Scenario) -> u16 {
    let state = &scenario.state;
    match random.below(10) {
        0..=3 => u16::from(state.sp.wrapping_sub(random.below(6) as u8)),
        4..=6 => random.below(0x40) as u16,
        7 => state.pc.wrapping_add(random.below(40) as u16),
        8 => random.pick(&[0x0000, 0x003F, 0x0040, 0x00FF, 0x0100, 0xFFFF]),
        _ => random.word(),
    }
}

/// Now and then no entry is free for the record of the write's clock, or none behind it.
fn fit_outputs(random: &Random, scenario: &mut Scenario, write: Write) {
    if write.recorded && random.percent(40) {
        let free = write.records + random.pick(&[0, 0, 1]);
        (scenario.output_clocks, scenario.output_words) = free_entries(random, free as u32);
    }
}

/// Now and then a call ends on the write's clock, or right before it.
fn fit_calls(random: &Random, scenario: &mut Scenario, write: Write, budget: u32) {
    if scenario.theme == Theme::HugeCount || !random.percent(40) {
        return;
    }
    let clock = scenario.state.clock;
    let calls = &mut scenario.lists[0].calls;
    let before = write.clocks - random.pick(&[0, 0, 1]).min(write.clocks);
    let first = random.below(before + 1);
    calls.clear();
    calls.push(Call::Run(first));
    calls.push(Call::Run(before - first));
    for _ in 0..random.below(4) {
        calls.push(call(random, clock, budget));
    }
}
