//! One scenario: a start state, a memory, an input list, free output entries and lists of calls.

use crate::code::{
    block, clocking_loop, receiving_loop, sending_loop, shift_setting, switching_loop, turning_loop, Style,
};
use crate::damage::{damage, ByteDamage};
use crate::halts::Survey;
use crate::inputs::Inputs;
use crate::memories::{page_zero, vectors, Backgrounds, LENGTH, UNDEFINED};
use crate::random::Random;
use crate::states::{settle_levels, shift_control, state, StateKind};
use crate::sums::PageList;
use plain_clock::clock::RES_HIGH;
use plain_clock::state::FLAG_I;
use plain_clock::{fresh, State};

#[derive(Clone, Copy, PartialEq, Eq, Debug)]
pub enum Call {
    Step,
    Run(u32),
}

impl Call {
    pub fn clocks(self) -> u32 {
        match self {
            Call::Step => 1,
            Call::Run(n) => n,
        }
    }
}

/// A list of calls. "all calls of a list are given the same address, or none" (document 02, U4).
#[derive(Clone, PartialEq, Eq, Debug)]
pub struct List {
    pub halt: Option<u16>,
    /// Free entries that come behind those that the list before left.
    pub space: u32,
    pub calls: Vec<Call>,
}

/// What a scenario is about; its parts are random all the same.
#[derive(Clone, Copy, PartialEq, Eq, Debug)]
pub enum Theme {
    /// From fresh, released, through the reset entry.
    Program,
    /// From fresh, held by RES for long: long gaps.
    Held,
    /// An evenly random state.
    Even,
    /// A state near events.
    NearEvents,
    /// Counters with pulses on PA4 and PA5.
    Counters,
    Sending,
    Receiving,
    /// Bytes sent in shift-register mode.
    ShiftSending,
    /// Bytes received in shift-register mode, PA4 clocked from outside, by counter A or by port A's latch.
    ShiftReceiving,
    /// SCCR rewritten, either half in either mode.
    Switching,
    /// RES low now and then.
    Resets,
    /// PC, stack or both in the registers.
    InRegisters,
    /// Code and stack in page zero.
    InPageZero,
    /// RES low for long with few events: long gaps.
    LongGaps,
    /// As many clocks as fit, where a stop comes soon.
    HugeCount,
}

pub struct Scenario {
    pub theme: Theme,
    pub state: State,
    /// What the model's state cannot have.
    pub byte_damage: Option<ByteDamage>,
    /// 65,536 bytes, or fewer or more where that is the damage.
    pub memory: Vec<u8>,
    pub input_clocks: Vec<u32>,
    pub input_codes: Vec<u8>,
    /// The output lists as they are lent: their entries show what is written.
    pub output_clocks: Vec<u32>,
    pub output_words: Vec<u32>,
    /// None where every call lacks sums.
    pub page_list: Option<PageList>,
    /// The first list, and lists that follow where the one before has ended with a stop.
    pub lists: Vec<List>,
}

/// What scenarios are made from. The scenario's buffers are used again for the next one.
pub struct Maker {
    seed: u64,
    backgrounds: Backgrounds,
    inputs: Inputs,
    survey: Survey,
}

impl Scenario {
    pub fn empty() -> Self {
        Scenario {
            theme: Theme::Program,
            state: fresh(),
            byte_damage: None,
            memory: vec![0; LENGTH],
            input_clocks: Vec::new(),
            input_codes: Vec::new(),
            output_clocks: Vec::new(),
            output_words: Vec::new(),
            page_list: None,
            lists: Vec::new(),
        }
    }

    /// How many sums a call is lent; none where it lacks them.
    pub fn sums_lent(&self, list: usize, call: usize) -> Option<usize> {
        self.page_list.as_ref().and_then(|page_list| page_list.lent(list, call))
    }

    pub fn state_kind(&self) -> StateKind {
        state_kind(self.theme)
    }

    /// The place of the input that makes RES high on the first clock.
    pub fn release(&self) -> Option<usize> {
        let first = self.state.clock.checked_add(1)?;
        let inputs = self.input_clocks.iter().zip(&self.input_codes);
        inputs.take_while(|(&clock, _)| clock == first).position(|(_, &code)| code == RES_HIGH)
    }
}

fn state_kind(theme: Theme) -> StateKind {
    match theme {
        Theme::Program | Theme::Held => StateKind::Fresh,
        Theme::Even => StateKind::Even,
        _ => StateKind::NearEvents,
    }
}

impl Maker {
    pub fn new(seed: u64) -> Self {
        Maker { seed, backgrounds: Backgrounds::new(seed), inputs: Inputs::new(), survey: Survey::new() }
    }

    /// Makes the scenario of this index.
    pub fn make(&mut self, index: u64, scenario: &mut Scenario) {
        let random = &Random::new(self.seed, index);
        let theme = theme(random);
        scenario.theme = theme;
        scenario.byte_damage = None;
        scenario.state = start_state(random, theme);
        if random.percent(4) && !long(theme) {
            scenario.state.clock = u32::MAX - random.pick(&[0, 1, random.below(20), random.below(300)]);
        }
        let budget = budget(random, theme);
        self.fill_memory(random, scenario);
        self.fill_inputs(random, scenario, budget);
        fill_outputs(random, scenario);
        fill_calls(random, scenario, budget);
        self.survey.fill(random, scenario, budget);
        if random.percent(7) {
            damage(random, scenario);
        }
        scenario.page_list = random.flag().then(|| PageList::new(random, &scenario.memory));
    }

    fn fill_memory(&mut self, random: &Random, scenario: &mut Scenario) {
        let theme = scenario.theme;
        scenario.memory.resize(LENGTH, 0);
        let memory = &mut scenario.memory[..];
        if theme == Theme::HugeCount {
            self.backgrounds.copy(UNDEFINED, memory);
            return;
        }
        self.backgrounds.copy(self.backgrounds.any(random), memory);
        let code = code_start(random, theme);
        let quiet = (theme == Theme::Counters || serial(theme)) && random.percent(75);
        let style = if quiet || random.percent(20) { Style::Quiet } else { Style::Wild };
        if random.percent(80) {
            page_zero(random, memory, code);
        }
        vectors(random, memory, code, style);
        match theme {
            Theme::Sending if random.percent(70) => sending_loop(random, memory, code),
            Theme::Receiving if random.percent(70) => receiving_loop(random, memory, code),
            _ if shifts(theme) && random.percent(80) => shift_loop(random, theme, memory, code),
            Theme::Program if random.percent(30) => {
                let behind = shift_setting(random, memory, code);
                let theme = random.pick(&[Theme::ShiftSending, Theme::ShiftReceiving, Theme::Switching]);
                shift_loop(random, theme, memory, behind);
            }
            _ => {
                let instructions = random.pick(&[2, 4, 8, 16, 30]);
                block(random, memory, code, style, instructions);
            }
        }
        let in_registers = theme == Theme::InRegisters && random.percent(50);
        if in_registers {
            let anywhere = random.below(0x40);
            scenario.state.pc = random.pick(&[random.below(0x04), random.between(0x10, 0x1E), 0x17, anywhere]) as u16;
            // at 17h the second byte of an instruction is 18h, whose read clears IFR4
            scenario.state.ifr |= 0x10;
        } else if scenario.state_kind() != StateKind::Fresh && random.percent(96) {
            scenario.state.pc = code;
        }
    }

    fn fill_inputs(&mut self, random: &Random, scenario: &mut Scenario, budget: u32) {
        let (theme, state) = (scenario.theme, &scenario.state);
        self.inputs.clear();
        let span = budget + 10;
        match theme {
            Theme::HugeCount => {}
            Theme::Held => {
                let edges = random.pick(&[0, 0, 2]);
                self.inputs.edges(random, span, edges);
                if random.flag() {
                    self.inputs.release(random, span);
                }
            }
            Theme::Receiving => self.inputs.characters(random, state.sccr, state.latch_a, span),
            Theme::ShiftSending if state.sccr & 0x40 != 0 => {
                self.inputs.characters(random, state.sccr, state.latch_a, span);
            }
            Theme::ShiftReceiving | Theme::Switching => match random.below(10) {
                0..=5 => self.inputs.shifted_bits(random, span),
                6..=8 => self.inputs.line(random, span),
                _ => {}
            },
            Theme::Program if random.percent(20) => self.inputs.shifted_bits(random, span),
            Theme::Counters => {
                let pulses = random.pick(&[4, 10, 20]);
                self.inputs.pulses(random, 4, pulses);
                self.inputs.pulses(random, 5, pulses);
            }
            Theme::Resets => self.inputs.reset(random, span.min(200)),
            Theme::LongGaps => {
                self.inputs.edges(random, span, 3);
                if random.flag() {
                    self.inputs.edges(random, span, 1);
                }
            }
            _ => {}
        }
        if theme == Theme::Program {
            self.inputs.release(random, span);
        }
        if theme != Theme::HugeCount && !long(theme) {
            let edges = if random.percent(1) { 150 } else { random.pick(&[0, 0, 1, 3, 8, 20]) };
            self.inputs.edges(random, span, edges);
            if random.percent(8) {
                self.inputs.nmi(random, span);
            }
            if random.percent(if serial(theme) { 8 } else { 5 }) {
                self.inputs.reset(random, span);
            }
        }
        self.inputs.finish(state.clock, &mut scenario.input_clocks, &mut scenario.input_codes);
    }
}

fn theme(random: &Random) -> Theme {
    match random.below(1000) {
        0..=89 => Theme::Program,
        90..=179 => Theme::Even,
        180..=329 => Theme::NearEvents,
        330..=419 => Theme::Counters,
        420..=499 => Theme::Sending,
        500..=589 => Theme::Receiving,
        590..=674 => Theme::ShiftSending,
        675..=779 => Theme::ShiftReceiving,
        780..=834 => Theme::Switching,
        835..=889 => Theme::Resets,
        890..=939 => Theme::InRegisters,
        940..=987 => Theme::InPageZero,
        988 => Theme::Held,
        989 => Theme::LongGaps,
        _ => Theme::HugeCount,
    }
}

/// Whether a theme is about the serial channel.
fn serial(theme: Theme) -> bool {
    shifts(theme) || matches!(theme, Theme::Sending | Theme::Receiving)
}

/// Whether a theme is about the shift-register mode.
fn shifts(theme: Theme) -> bool {
    matches!(theme, Theme::ShiftSending | Theme::ShiftReceiving | Theme::Switching)
}

/// Whether a theme is about long gaps.
fn long(theme: Theme) -> bool {
    matches!(theme, Theme::Held | Theme::LongGaps)
}

/// About how many clocks the calls ask for.
fn budget(random: &Random, theme: Theme) -> u32 {
    match theme {
        Theme::Sending | Theme::Receiving => random.pick(&[200, 300, 400, 600]),
        _ if shifts(theme) => random.pick(&[60, 120, 200, 300, 400]),
        _ if long(theme) => random.pick(&[10_000, 70_000, 140_000]),
        _ if random.percent(1) => random.between(1_000, 5_000),
        _ => random.pick(&[20, 50, 100, 100, 200, 200, 300]),
    }
}

fn start_state(random: &Random, theme: Theme) -> State {
    let mut start = state(random, state_kind(theme));
    match theme {
        Theme::Sending => set_up_serial(random, &mut start, &[0x80, 0x80, 0xC0, 0xA0]),
        Theme::Receiving => set_up_serial(random, &mut start, &[0x40, 0x40, 0xC0, 0x60]),
        Theme::ShiftSending => set_up_serial(random, &mut start, &[0xA0, 0xA0, 0xB0, 0xE0, 0xF0]),
        Theme::ShiftReceiving => set_up_shift_receiver(random, &mut start),
        Theme::Switching => {
            let control = shift_control(random);
            set_up_serial(random, &mut start, &[control]);
        }
        Theme::Counters => start.sccr = random.pick(&[0, 0, 0, start.sccr]),
        Theme::InRegisters => set_up_registers_as_code(random, &mut start),
        Theme::InPageZero => start.sp = random.between(0x40, 0xFF) as u8,
        Theme::LongGaps => set_up_long_gaps(random, &mut start),
        Theme::HugeCount => set_up_soon_stop(random, &mut start),
        _ => {}
    }
    start
}

/// A half on, counter A short, PA7 not driven low.
fn set_up_serial(random: &Random, state: &mut State, halves: &[u8]) {
    state.sccr = random.pick(halves) | random.below(16) as u8;
    state.latch_a = random.pick(&[0, 0, 0, 1, 2]);
    state.counter_a = random.below(u32::from(state.latch_a) + 1) as u16;
    state.ports[0] |= 0x80;
    state.external |= 0x3 << 32 | 0x80;
    state.scsr = random.pick(&[0x40, 0x00, state.scsr]);
    state.sp |= 0x80;
    if random.percent(70) {
        state.p |= FLAG_I;
    }
    if random.percent(60) {
        state.receiver.bits_left = 0;
        state.receiver.sub_interval = 0;
    }
    settle_levels(random, state);
}

/// A receiver in shift-register mode, counter A in any mode; PA4 is high but for what clocks it.
fn set_up_shift_receiver(random: &Random, state: &mut State) {
    set_up_serial(random, state, &[0x50, 0x50, 0x50, 0xD0]);
    state.ports[0] |= 0x10;
    state.external |= 0x10;
    state.mcr = state.mcr & 0xFC | random.pick(&[0x00, 0x01, 0x01, 0x02, 0x03]);
    if random.flag() {
        state.latch_a = random.pick(&[0, 1, 2, 3, 5, 8]);
    }
    settle_levels(random, state);
}

/// What a loop of these themes does.
fn shift_loop(random: &Random, theme: Theme, memory: &mut [u8], start: u16) {
    match (theme, random.below(10)) {
        (Theme::ShiftSending, 0..=6) => sending_loop(random, memory, start),
        (Theme::ShiftReceiving, 0..=3) => receiving_loop(random, memory, start),
        (Theme::ShiftReceiving, 4..=6) => clocking_loop(random, memory, start),
        (Theme::ShiftReceiving, _) | (_, 0..=1) => turning_loop(random, memory, start),
        _ => switching_loop(random, memory, start),
    }
}

/// Registers that read as opcodes and operands, and the stack near them.
fn set_up_registers_as_code(random: &Random, state: &mut State) {
    state.sp = random.pick(&[state.sp, random.below(0x40) as u8]);
    state.ports = [opcode(random), opcode(random), opcode(random), opcode(random)];
    state.external |= 0xFFFF_FFFF;
    state.data_received = opcode(random);
    state.counter_a = u16::from_le_bytes([opcode(random), opcode(random)]);
    state.counter_b = u16::from_le_bytes([opcode(random), opcode(random)]);
    if random.flag() {
        state.ier = opcode(random);
        state.mcr = opcode(random);
        state.sccr = opcode(random);
        state.scsr = opcode(random);
    }
    settle_levels(random, state);
}

/// Mostly one that reads, writes, pushes or pulls.
fn opcode(random: &Random) -> u8 {
    let any = random.byte();
    random.pick(&[0x00, 0x08, 0x20, 0x28, 0x40, 0x48, 0x60, 0x68, 0x4C, 0x6C, 0x85, 0xA5, 0xE6, 0xEA, any, any])
}

/// RES low from the start, with long counts.
fn set_up_long_gaps(random: &Random, state: &mut State) {
    state.external &= !(1 << 33);
    state.counter_a = random.word();
    state.counter_b = random.word();
    state.latch_a = random.word() | 0x4000;
    state.latch_b = random.word() | 0x4000;
}

/// RES high and stays so: entries come to an undefined opcode, whatever is due. A byte waiting goes to a port or to
/// where nothing is executed.
fn set_up_soon_stop(random: &Random, state: &mut State) {
    state.external |= 1 << 33;
    state.pc = 0x0200;
    state.sp = 0x80;
    if let Some(byte) = state.waiting.as_mut().filter(|byte| byte.address > 3) {
        byte.address = 0x4000 | byte.address & 0x3FFF;
    }
    if random.flag() {
        // both stops on one clock, where no entry is free
        state.mcr = 0x05;
        state.sccr = 0;
        state.counter_a = u16::from(state.wait);
        state.counter_b = u16::from(state.wait);
    }
}

fn code_start(random: &Random, theme: Theme) -> u16 {
    if theme == Theme::InPageZero {
        return random.between(0x40, 0xF8) as u16;
    }
    match random.below(20) {
        0 => 0xFFE0 | random.word(),
        1 => 0x10 + random.below(0x40) as u16,
        2 => random.word(),
        3 => random.word() | 0xF0,
        _ => 0x200 + random.below(0x2000) as u16,
    }
}

/// Few or many free entries, each of another content.
fn fill_outputs(random: &Random, scenario: &mut Scenario) {
    let few = scenario.theme == Theme::HugeCount && random.flag();
    let free = match random.below(20) {
        _ if few => 0,
        0..=1 => 0,
        2..=4 => random.between(1, 4),
        5..=7 => random.between(5, 20),
        // a byte in shift-register mode takes up to 17
        8..=13 if !shifts(scenario.theme) => 64,
        _ => 500,
    };
    (scenario.output_clocks, scenario.output_words) = free_entries(random, free);
}

/// So many entries, each of another content.
pub fn free_entries(random: &Random, free: u32) -> (Vec<u32>, Vec<u32>) {
    let salt = random.long();
    (0..free).map(|i| (salt ^ i.wrapping_mul(0x9E37_79B9), !salt ^ i.wrapping_mul(0x85EB_CA6B))).unzip()
}

fn fill_calls(random: &Random, scenario: &mut Scenario, budget: u32) {
    let clock = scenario.state.clock;
    scenario.lists.clear();
    scenario.lists.push(List { halt: None, space: 0, calls: Vec::new() });
    let calls = &mut scenario.lists[0].calls;
    if scenario.theme == Theme::HugeCount {
        calls.push(Call::Run(u32::MAX - clock - random.below(u32::MAX - clock)));
        calls.push(Call::Step);
        return;
    }
    if random.percent(20) {
        calls.push(Call::Run(budget));
        return;
    }
    let mut asked = 0;
    while asked < budget && calls.len() < 16 {
        let call = call(random, clock, budget);
        calls.push(call);
        if call.clocks() <= budget {
            asked += call.clocks();
        }
    }
}

pub fn call(random: &Random, clock: u32, budget: u32) -> Call {
    match random.below(100) {
        0..=24 => Call::Step,
        25..=30 => Call::Run(0),
        31..=37 => Call::Run(1),
        38..=66 => Call::Run(random.between(2, 20)),
        67..=89 => Call::Run(random.between(21, 150)),
        90..=96 => Call::Run(budget),
        // The clock never falls, so that this is refused (4) whatever the calls before did.
        _ if clock > 0 => Call::Run(u32::MAX - random.below(clock)),
        _ => Call::Step,
    }
}
