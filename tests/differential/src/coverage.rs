//! How often each kind of thing occurred, seen on the model's side.

mod sums;

use crate::compare::{is_refusal, is_stop};
use crate::scenario::{Call, Scenario};
use crate::states::StateKind;
use plain_clock::accesses::AccessKind;
use plain_clock::counters::{mode_a, Mode};
use plain_clock::cpu::Start;
use plain_clock::opcodes::{defined, Addressing, Operation, TABLE};
use plain_clock::pins::{driven_word, falls, level, rises, PIN_NMI, PIN_PA4, PIN_PA5, PIN_PA7, PIN_RES};
use plain_clock::registers::interrupt_flags;
use plain_clock::serial::{
    asynchronous_receiver_on, asynchronous_transmitter_on, data_bits, judge_character, parity_enabled, receiver_on,
    receiver_shifts, shift_receiver_on, shift_sender_on, transmitter_on, transmitter_shifts, SCSR_EMPTY, SCSR_END,
    SCSR_FRAMING, SCSR_FULL, SCSR_PARITY,
};
use plain_clock::shifted::{receiver_shift, sender_tick, ShiftedBytes};
use plain_clock::state::FLAG_D;
use plain_clock::{run, ClockReport, Outcome, State, Turn, Waiting, World};

macro_rules! kinds {
    ($($name:ident: $text:literal,)*) => {
        #[derive(Clone, Copy, PartialEq, Eq, Debug)]
        pub enum Kind {
            $($name,)*
        }
        const TEXTS: &[&str] = &[$($text,)*];
    };
}

kinds! {
    StartFresh: "start: fresh",
    StartReleased: "start: fresh, RES high on the next clock",
    StartHeld: "start: fresh, held on the next clock",
    StartEven: "start: any well-formed state",
    StartNearEvents: "start: near events",
    StartNearTop: "start: clock within 300 of the top",
    StartWaiting: "start: a byte waiting",
    Run0: "call: run of 0 clocks, not refused",
    RunHuge: "call: run of over 1,000,000 clocks, not refused",
    AfterRefusal: "call: not refused, after a refused one in its list",
    Leaps: "call: fewer leaps than clocks",
    CutGap: "call: ended within a gap",
    CutWaiting: "call: ended with a byte waiting",
    CutBeforePut: "call: ended on the clock before a put",
    Gap: "leap: with a gap above 0",
    LongGap: "leap: with a gap above 1,000",
    CounterAInterval: "counter A: underflow in mode 00",
    CounterAHeld: "counter A: underflow held to mode 00 by serial",
    CounterAPulse: "counter A: underflow in mode 01, PA4 inverted",
    CounterAEvent: "counter A: underflow in mode 10",
    CounterAWidth: "counter A: underflow in mode 11",
    CounterBInterval: "counter B: underflow in mode 00",
    CounterBPulseB: "counter B: underflow in mode 01, turn B, PA5 inverted",
    CounterBPulseC: "counter B: underflow in mode 01, turn C, PA5 inverted",
    CounterBEvent: "counter B: underflow in mode 10",
    CounterBRetrigger: "counter B: underflow in mode 11",
    Retriggered: "counter B: reload by a rise in mode 11",
    RetriggeredAtZero: "counter B: rise at 0000h in mode 11",
    BothUnderflow: "counters: both underflow on one clock",
    UnderflowUnderReset: "counters: underflow under RES low",
    LoadAPulse: "counter A: 1Ah written in mode 01",
    LoadBPulse: "counter B: 1Eh written in mode 01",
    EnterPulseMcr: "counter A: mode 01 entered by MCR, PA4's latch was 0",
    EnterPulseSccr: "counter A: mode 01 entered by SCCR, PA4's latch was 0",
    Tick: "serial: tick with a half on",
    Taken: "serial: data taken from idle",
    TakenAtEnd: "serial: data taken at a frame's end",
    FrameEnded: "serial: frame ended with none waiting, SCSR7 set",
    StartSeen: "serial: start bit accepted",
    FalseStart: "serial: low shorter than a start",
    CharacterRight: "serial: character received, no fault",
    CharacterParity: "serial: character with wrong parity alone",
    CharacterFraming: "serial: character with a low stop alone",
    CharacterBoth: "serial: character with both faults",
    CharacterOverrun: "serial: character over a full data register",
    SccrStopsTransmitter: "serial: SCCR written, frame cut off",
    SccrStopsReceiver: "serial: SCCR written, character cut off",
    SccrKeepsFrame: "serial: SCCR written, frame kept, another format",
    SccrFrameToShift: "serial: SCCR written, transmitter shifts, frame cut off",
    SccrCharacterToShift: "serial: SCCR written, receiver shifts, character cut off",
    EndCleared: "serial: 17h written with SCSR5 set",
    StatusCleared: "serial: 17h read with a receiver status set",
    ShiftTaken: "shift: byte taken from idle",
    ShiftTakenAtEnd: "shift: byte taken at a byte's end",
    ShiftEnded: "shift: byte ended with none waiting, SCSR7 set",
    ShiftBeyond: "shift: bit sent with more than 8 left",
    ShiftSentListening: "shift: byte ended, an asynchronous receiver on",
    CharacterInShift: "shift: character received while a byte is being sent",
    ClockUnlikeLatch: "shift: PA4's drive unlike its latch",
    ClockHeld: "shift: PA4's drive high, held low from outside",
    ClockPortWritten: "shift: port A written while PA4 is the clock",
    ShiftByInput: "shift: bit received at a rise by an input",
    ShiftByPulse: "shift: bit received at a rise by A's underflow in mode 01",
    ShiftByLoad: "shift: bit received at a rise by 1Ah written in mode 01",
    ShiftByPort: "shift: bit received at a rise by a write of port A",
    ShiftBySccr: "shift: bit received at a rise by SCCR, PA4 from clock to latch",
    ShiftByMode: "shift: bit received at a rise by mode 01 entered",
    ShiftCounted: "shift: bit received at a rise that A counts",
    ShiftAndTick: "shift: bit received on the clock of a tick",
    ShiftBeyondReceived: "shift: bit received with more than 8 left",
    ShiftReceived: "shift: byte received, SCSR0 set",
    ShiftOverrun: "shift: byte received over a full data register",
    ShiftReceivedSending: "shift: byte received while a frame is being sent",
    SccrStopsSent: "shift: SCCR written, byte being sent cut off",
    SccrStopsSentSame: "shift: SCCR written as it was, byte being sent cut off",
    SccrSentToFrames: "shift: SCCR written, asynchronous, byte being sent cut off",
    SccrStopsReceived: "shift: SCCR written, byte being received cut off",
    SccrStopsReceivedSame: "shift: SCCR written as it was, byte being received cut off",
    SccrReceivedToCharacters: "shift: SCCR written, asynchronous, byte being received cut off",
    Sccr5BesideSccr4: "shift: SCCR5 set beside SCCR4, byte being received cut off",
    ResetStopsSent: "shift: RES low, byte being sent cut off",
    ResetStopsReceived: "shift: RES low, byte being received cut off",
    RiseUnderReset: "shift: RES low, rise of PA4 shifts nothing",
    CutSent: "shift: call ended within a byte being sent",
    CutReceived: "shift: call ended within a byte being received",
    GapSent: "shift: leap with a gap above 0 within a byte being sent",
    GapReceived: "shift: leap with a gap above 0 within a byte being received",
    ResetEntry: "entry: reset",
    NmiEntry: "entry: NMI",
    NmiOverIrq: "entry: NMI while an IRQ is due",
    Irq0: "entry: IRQ by IFR0, PA0",
    Irq1: "entry: IRQ by IFR1, PA1",
    Irq2: "entry: IRQ by IFR2, PA2",
    Irq3: "entry: IRQ by IFR3, PA3",
    Irq4: "entry: IRQ by IFR4, counter A",
    Irq5: "entry: IRQ by IFR5, counter B",
    Irq6: "entry: IRQ by IFR6, receiver",
    Irq7: "entry: IRQ by IFR7, transmitter",
    EntryOverUndefined: "entry: in place of an undefined opcode",
    ResetLow: "RES low: changes a field",
    ResetLowSame: "RES low: changes nothing",
    ResetLowNmi: "RES low: with an NMI fall",
    ResetRise: "RES: rise",
    RisePa0: "edge: rise on PA0",
    RisePa1: "edge: rise on PA1",
    FallPa2: "edge: fall on PA2",
    FallPa3: "edge: fall on PA3",
    RisePa4: "edge: rise on PA4",
    RisePa5: "edge: rise on PA5",
    FallNmi: "edge: fall on NMI",
    EdgeByDrive: "edge: on PA0 to PA5 on a clock without input",
    RepeatedInput: "input: one that changes no level",
    ManyInputs: "input: three or more on one clock",
    JmpPageEnd: "instruction: JMP indirect, pointer at a page's end",
    JmpTop: "instruction: JMP indirect, pointer at FFFFh",
    JmpPortA: "instruction: JMP indirect, pointer at 00FFh, high byte from port A",
    JmpRegisters: "instruction: JMP indirect, pointer at 003Fh",
    DecimalAdc: "instruction: decimal ADC",
    DecimalSbc: "instruction: decimal SBC",
    PushRegister: "instruction or entry: push at a register",
    PullRegister: "instruction: pull at a register",
    FetchRegister: "instruction: opcode from a register",
    OperandRegister: "instruction: opcode from memory, operand from a register",
    BrkAtData: "instruction: BRK at 17h, IFR4 set, 18h not read",
    PcWraps: "instruction: PC from FFFFh on",
    ModifyPort: "instruction: read-modify-write at a port, latch unlike level",
    JsrOverCode: "instruction: JSR pushes over its own operand",
    PageCrossed: "instruction: page crossed, a clock more",
    BranchSame: "instruction: branch taken to the same page",
    BranchOther: "instruction: branch taken to another page",
    PutMemory: "store: put in memory",
    PutRegister: "store: put in a register",
    PutModified: "store: put in a register by a read-modify-write instruction",
    PutOverInverted: "store: read-modify-write of port A, its latch changed before the put",
    PutLent: "store: put of a byte lent waiting",
    PutSame: "store: put of a byte that the memory held already",
    PutCode: "store: put over the next opcode",
    PutUnderflow: "store: put on a clock with an underflow",
    PutInput: "store: put on a clock with an input",
    PutBehindGap: "store: put behind a gap above 0",
    PutLoad: "store: counter loaded on the clock of its underflow",
    PutBeforeIrq: "store: put right before an IRQ entry",
    PutAfterFull: "store: put in the list behind a stop 7 there",
    WaitingNmi: "store: NMI falls while the byte waits",
    WaitingTick: "store: underflow while the byte waits",
    Dropped: "store: byte dropped by RES low before its last clock",
    DroppedLast: "store: byte dropped by RES low on its last clock",
    ByInstruction: "record: on a clock that starts an instruction",
    ByPut: "record: on the clock of a put",
    ByEntry: "record: on a clock of an entry",
    ByUnderflowA: "record: on a clock with an underflow of A, no start",
    ByUnderflowB: "record: on a clock with an underflow of B, no start",
    ByReset: "record: on a clock where RES low changes a field",
    ByLine: "record: transmitter's line changed by a tick",
    ByInput: "record: on a clock with an input",
    ByLevels: "record: on a clock with levels unlike the last, no input",
    Stop6Full: "stop 6: no entry free and PA4 or PA5 inverted on that clock",
    Stop7Underflow: "stop 7: for an underflow's inversion",
    Stop7Reset: "stop 7: under RES low",
    Stop7Shift: "stop 7: for the clock of a sender",
    Stop7Put: "stop 7: for the clock of a put",
    Stop7Halt: "stop 7: on a clock that would write at the halt address",
    HaltGiven: "halt: address given, all clocks done",
    HaltRefused: "halt: address given, call refused",
    HaltStored: "halt: at a store at 100h or above",
    HaltStoredZero: "halt: at a store at 40h to FFh",
    HaltModified: "halt: at a read-modify-write instruction at 40h or above",
    HaltRegister: "halt: at a write of a register",
    HaltModifiedRegister: "halt: at a read-modify-write instruction at a register",
    HaltIgnored: "halt: at a write of a register that ignores it",
    HaltLent: "halt: at a byte lent waiting",
    HaltPushed: "halt: at an instruction's push at 40h or above",
    HaltEntry: "halt: at a push of NMI or IRQ",
    HaltPushedRegister: "halt: at a push at a register",
    HaltSecond: "halt: at the second write of its clock",
    HaltThird: "halt: at the third write of its clock",
    HaltSame: "halt: at a byte that the memory held already",
    HaltZero: "halt: at 0000h",
    HaltTop: "halt: at FFFFh",
    HaltRecorded: "halt: on a clock with a record",
    HaltInput: "halt: on a clock with an input",
    HaltUnderflow: "halt: on a clock with an underflow",
    HaltBehindGap: "halt: behind a gap above 0",
    HaltLast: "halt: on the last of two or more clocks of a call",
    HaltHuge: "halt: in a run of over 1,000,000 clocks",
    HaltBeforeFull: "halt: the next clock needs a record, none free",
    HaltBeforeUndefined: "halt: the next clock would start an undefined opcode",
    HaltWaiting: "halt: all clocks done, a byte waiting for the address",
    HaltDropped: "halt: byte for the address dropped by RES low",
    HaltRead: "halt: address read, not written, on a clock done",
    HaltReset: "halt: reset entry, SP at the address",
    HaltAfterFull: "halt: in the list behind a stop 7 on that clock",
    HaltAgain: "halt: in the list behind a halt at the same address",
    AfterHalt: "call: all clocks done in the list behind a halt",
    SumsRight: "sums: right ones, a byte changed",
    SumsWrong: "sums: wrong ones, a byte changed",
    SumsLacking: "sums: call lacking them behind one with them, a byte changed",
    SumsBehindLacking: "sums: call with them behind one lacking them, a byte changed",
    SumsPages: "sums: bytes of three or more pages changed",
    SumsPageZero: "sums: a byte of page 0 changed",
    SumsPageLast: "sums: a byte of page FFh changed",
    SumsTwice: "sums: two bytes of one page changed on one clock",
    SumsSame: "sums: byte written that the memory held already, none changed",
    SumsRegister: "sums: register written, no byte changed",
    SumsBelow: "sums: an entry gone below 0",
    SumsAbove: "sums: an entry gone above 65,535",
    SumsWaiting: "sums: all clocks done, a byte waiting for the memory",
    SumsDropped: "sums: byte for the memory dropped by RES low",
    SumsUndefined: "sums: stop 6, a byte changed",
    SumsFull: "sums: stop 7, a byte changed",
    SumsFullClock: "sums: stop 7 on a clock that would change a byte",
    SumsHalted: "sums: halt, its byte changed",
    SumsRun0: "sums: run of 0 clocks, not refused",
    SumsRefused: "sums: refused with 2 to 5, 256 sums",
    SumsMemory: "sums: refused with 1, not 256 sums",
    SumsNone: "sums: refused with 13, no sums",
    SumsTooFew: "sums: refused with 13, 255 sums",
    SumsTooMany: "sums: refused with 13, 257 sums",
    SumsState: "sums: refused with 13, the state not well-formed",
    SumsFlag: "sums: refused with 13, a flag above 1 or a none waiting that is another",
    SumsLists: "sums: refused with 13, where 3 would be",
    SumsClock: "sums: refused with 13, where 4 would be",
    SumsPins: "sums: refused with 13, where 5 would be",
    SumsAfter13: "sums: call not refused, after one refused with 13 in its list",
    SumsTotal: "sums: total of right sums, in two orders",
}

const KINDS: usize = TEXTS.len();

/// Data bits 5 to 8, without parity, odd, even.
const FORMATS: usize = 12;

/// SCCR0 to SCCR3, which the shift-register mode ignores.
const FORMS: usize = 16;

#[derive(Clone)]
pub struct Coverage {
    counts: [u64; KINDS],
    /// By `step` and by `run`, numbers 0 to 13.
    numbers: [[u64; 14]; 2],
    opcodes: [u64; 256],
    /// Registers read, read to be modified, written.
    registers: [[u64; 64]; 3],
    sent: [u64; FORMATS],
    received: [u64; FORMATS],
    shift_sent: [u64; FORMS],
    shift_received: [u64; FORMS],
    pub shifted: ShiftedBytes,
    /// What made PA4's drive rise on the last clock.
    pa4_risen: Option<Kind>,
    /// What the byte waiting, or the last one put, is of.
    waiting: Waiter,
    /// The last clock was that of a put.
    put_last: bool,
    pub scenarios: u64,
    pub calls: u64,
    pub clocks: u64,
    longest_gap: u64,
    gap: u64,
    refused_before: bool,
    /// Clocks done in the present call.
    call_clocks: u32,
    halts: Halts,
    sums: sums::Sums,
}

/// What a byte waiting is of.
#[derive(Clone, Copy, PartialEq, Eq)]
enum Waiter {
    /// The state that was lent.
    Lent,
    Store,
    /// With the byte that was read.
    Modify(u8),
}

/// What halts are judged by.
#[derive(Clone, Default)]
struct Halts {
    /// The present list's address.
    address: Option<u16>,
    /// The list before: its address, the stop that ended it, and whether that was a 7 on a clock that writes there.
    before: Option<(Option<u16>, u8, bool)>,
    /// The list before was ended by a 7 on the clock of a put.
    full_put: bool,
    /// The last clock done, and whether it came behind a gap.
    last: Option<(ClockReport, bool)>,
}

impl Coverage {
    pub fn new() -> Self {
        Coverage {
            counts: [0; KINDS],
            numbers: [[0; 14]; 2],
            opcodes: [0; 256],
            registers: [[0; 64]; 3],
            sent: [0; FORMATS],
            received: [0; FORMATS],
            shift_sent: [0; FORMS],
            shift_received: [0; FORMS],
            shifted: ShiftedBytes::default(),
            pa4_risen: None,
            waiting: Waiter::Lent,
            put_last: false,
            scenarios: 0,
            calls: 0,
            clocks: 0,
            longest_gap: 0,
            gap: 0,
            refused_before: false,
            call_clocks: 0,
            halts: Halts::default(),
            sums: sums::Sums::default(),
        }
    }

    fn met(&mut self, kind: Kind) {
        self.counts[kind as usize] += 1;
    }

    fn met_if(&mut self, condition: bool, kind: Kind) {
        self.counts[kind as usize] += u64::from(condition);
    }

    pub fn scenario(&mut self, scenario: &Scenario) {
        self.scenarios += 1;
        self.refused_before = false;
        self.halts = Halts::default();
        self.shifted.start();
        self.pa4_risen = None;
        self.waiting = Waiter::Lent;
        self.put_last = false;
        self.sums = sums::Sums::of(scenario);
        self.met(match scenario.state_kind() {
            StateKind::Fresh => Kind::StartFresh,
            StateKind::Even => Kind::StartEven,
            StateKind::NearEvents => Kind::StartNearEvents,
        });
        self.met_if(scenario.state.clock > u32::MAX - 300, Kind::StartNearTop);
        self.met_if(scenario.state.waiting.is_some(), Kind::StartWaiting);
        if scenario.state_kind() == StateKind::Fresh {
            let released = scenario.release().is_some();
            self.met(if released { Kind::StartReleased } else { Kind::StartHeld });
        }
    }

    /// A list, whose calls are given this halt address or none.
    pub fn begin_list(&mut self, halt: Option<u16>) {
        self.halts.address = halt;
        self.sums.begin_list();
    }

    pub fn begin_call(&mut self) {
        self.gap = 0;
        self.call_clocks = 0;
        self.halts.last = None;
    }

    /// A call, after the model has done it.
    pub fn call(&mut self, call: Call, outcome: &Outcome, world: &World) {
        self.calls += 1;
        let by_run = usize::from(call != Call::Step);
        self.numbers[by_run][usize::from(outcome.number)] += 1;
        if is_refusal(outcome.number) {
            self.refused_before = true;
            self.met_if(self.halts.address.is_some(), Kind::HaltRefused);
            return;
        }
        let n = call.clocks();
        self.met_if(self.refused_before, Kind::AfterRefusal);
        self.met_if(call == Call::Run(0), Kind::Run0);
        self.met_if(n > 1_000_000, Kind::RunHuge);
        self.met_if(outcome.number == 0 && outcome.leaps < u64::from(n), Kind::Leaps);
        self.met_if(self.gap > 0, Kind::CutGap);
        let waits = outcome.number == 0 && n > 0 && world.state.waiting.is_some();
        self.met_if(waits, Kind::CutWaiting);
        self.met_if(waits && world.state.wait == 1, Kind::CutBeforePut);
        self.met_if(n > 0 && byte_being_sent(&world.state), Kind::CutSent);
        self.met_if(n > 0 && byte_being_received(&world.state), Kind::CutReceived);
        if is_stop(outcome.number) {
            self.stop(world);
        }
        self.halt(call, outcome, world);
    }

    /// An accepted call, with a halt address or behind a list that ended with a halt.
    fn halt(&mut self, call: Call, outcome: &Outcome, world: &World) {
        let (address, before) = (self.halts.address, self.halts.before);
        let done = outcome.number == 0 && call.clocks() > 0;
        self.met_if(done && address.is_some(), Kind::HaltGiven);
        self.met_if(done && matches!(before, Some((_, 12, _))), Kind::AfterHalt);
        let for_address = address.is_some() && world.state.waiting.map(|byte| byte.address) == address;
        self.met_if(done && for_address, Kind::HaltWaiting);
        let full = outcome.number == 7 && halts_with_space(world, address);
        self.met_if(full, Kind::Stop7Halt);
        if outcome.number == 12 {
            self.halted(call, world);
            self.met_if(matches!(before, Some((_, 7, true))) && outcome.leaps == 1, Kind::HaltAfterFull);
            self.met_if(matches!(before, Some((same, 12, _)) if same == address), Kind::HaltAgain);
        }
        if is_stop(outcome.number) {
            self.halts.before = Some((address, outcome.number, full));
            self.halts.full_put = outcome.number == 7 && puts_next(world);
        }
    }

    fn halted(&mut self, call: Call, world: &World) {
        let (Some(address), Some((report, behind_gap))) = (self.halts.address, self.halts.last) else { return };
        let accesses = report.accesses.list();
        let writes: Vec<_> = accesses.iter().filter(|access| access.kind == AccessKind::Write).collect();
        let Some(place) = writes.iter().position(|write| write.address == address) else { return };
        let pushed = report.put.is_none();
        let stored = !pushed && self.waiting == Waiter::Store;
        let modified = !pushed && matches!(self.waiting, Waiter::Modify(_));
        let register = address < 0x40;
        self.met_if(stored && address >= 0x100, Kind::HaltStored);
        self.met_if(stored && !register && address < 0x100, Kind::HaltStoredZero);
        self.met_if(modified && !register, Kind::HaltModified);
        self.met_if(modified && register, Kind::HaltModifiedRegister);
        self.met_if(!pushed && self.waiting == Waiter::Lent, Kind::HaltLent);
        self.met_if(register, Kind::HaltRegister);
        self.met_if(register && ignores(address), Kind::HaltIgnored);
        self.met_if(pushed && report.opcode.is_some() && !register, Kind::HaltPushed);
        self.met_if(pushed && report.opcode.is_none(), Kind::HaltEntry);
        self.met_if(pushed && register, Kind::HaltPushedRegister);
        self.met_if(place == 1, Kind::HaltSecond);
        self.met_if(place == 2, Kind::HaltThird);
        self.met_if(writes[place].writes_the_same(), Kind::HaltSame);
        self.met_if(address == 0x0000, Kind::HaltZero);
        self.met_if(address == 0xFFFF, Kind::HaltTop);
        self.met_if(report.record, Kind::HaltRecorded);
        self.met_if(report.met.inputs > 0, Kind::HaltInput);
        self.met_if(report.met.underflow_a || report.met.underflow_b, Kind::HaltUnderflow);
        self.met_if(behind_gap, Kind::HaltBehindGap);
        self.met_if(self.call_clocks > 1 && self.call_clocks == call.clocks(), Kind::HaltLast);
        self.met_if(call.clocks() > 1_000_000, Kind::HaltHuge);
        self.met_if(full_next(world), Kind::HaltBeforeFull);
        self.met_if(undefined_next(world), Kind::HaltBeforeUndefined);
    }

    /// A stop, from the state that it left.
    fn stop(&mut self, world: &World) {
        let state = &world.state;
        let inverts =
            state.counter_a == 0 && mode_a(state) == Mode::Pulse || state.counter_b == 0 && state.mcr >> 2 & 3 == 1;
        let full = world.written == world.output_clocks.len();
        let reset_low = !level(state.external, PIN_RES);
        self.met_if(world.stop == 6 && inverts && full, Kind::Stop6Full);
        self.met_if(world.stop == 7 && inverts && !reset_low, Kind::Stop7Underflow);
        self.met_if(world.stop == 7 && falls_next(world), Kind::Stop7Reset);
        let ticks = state.counter_a == 0 && shift_sender_on(state.sccr);
        self.met_if(world.stop == 7 && ticks && state.wait > 0 && !falls_next(world), Kind::Stop7Shift);
        self.met_if(world.stop == 7 && puts_next(world), Kind::Stop7Put);
    }

    /// A done clock.
    pub fn clock(&mut self, before: &State, after: &State, report: &ClockReport) {
        self.clocks += 1;
        self.call_clocks += 1;
        self.halts.last = Some((*report, self.gap > 0));
        self.sums.clock(before, after, report);
        if !report.event {
            self.gap += 1;
            self.put_last = false;
            return;
        }
        self.met_if(self.gap > 0, Kind::Gap);
        self.met_if(self.gap > 1_000, Kind::LongGap);
        self.met_if(self.gap > 0 && byte_being_sent(before), Kind::GapSent);
        self.met_if(self.gap > 0 && byte_being_received(before), Kind::GapReceived);
        self.met_if(self.gap > 0 && report.put.is_some(), Kind::PutBehindGap);
        self.longest_gap = self.longest_gap.max(self.gap);
        self.gap = 0;
        self.pins(before, after, report);
        self.counters(before, after, report);
        if report.met.underflow_a && level(after.last, PIN_RES) {
            self.serial(before, after);
        }
        self.shift_register(before, after, report);
        self.store(before, after, report);
        match report.start {
            Some(Start::Instruction) => self.instruction(before, after, report),
            Some(start) => self.entry(after, report, start),
            None => {}
        }
        self.accesses(before, report);
        self.halt_address_unmet(after, report);
        if report.record {
            self.record(before, report, after);
        }
    }

    fn pins(&mut self, before: &State, after: &State, report: &ClockReport) {
        let risen = rises(before.last, after.last);
        let fallen = falls(before.last, after.last);
        let reset_low = !level(after.last, PIN_RES);
        self.met_if(level(risen, 0), Kind::RisePa0);
        self.met_if(level(risen, 1), Kind::RisePa1);
        self.met_if(level(fallen, 2), Kind::FallPa2);
        self.met_if(level(fallen, 3), Kind::FallPa3);
        self.met_if(level(risen, PIN_PA4), Kind::RisePa4);
        self.met_if(level(risen, PIN_PA5), Kind::RisePa5);
        self.met_if(level(fallen, PIN_NMI), Kind::FallNmi);
        self.met_if(level(risen, PIN_RES), Kind::ResetRise);
        self.met_if(report.met.inputs == 0 && (risen & 0x33 | fallen & 0x0C) != 0, Kind::EdgeByDrive);
        self.met_if(report.met.inputs > 0 && before.external == after.external, Kind::RepeatedInput);
        self.met_if(report.met.inputs >= 3, Kind::ManyInputs);
        self.met_if(report.met.reset_changes, Kind::ResetLow);
        self.met_if(reset_low && !report.met.reset_changes, Kind::ResetLowSame);
        self.met_if(reset_low && level(fallen, PIN_NMI), Kind::ResetLowNmi);
    }

    fn counters(&mut self, before: &State, after: &State, report: &ClockReport) {
        let met = &report.met;
        let reset_low = !level(after.last, PIN_RES);
        let rise = level(rises(before.last, after.last), PIN_PA5);
        if met.underflow_a {
            let held = !reset_low && before.mcr & 3 != 0;
            self.met(match met.modes.0 {
                Mode::Interval if held => Kind::CounterAHeld,
                Mode::Interval => Kind::CounterAInterval,
                Mode::Pulse => Kind::CounterAPulse,
                Mode::Event => Kind::CounterAEvent,
                Mode::Input => Kind::CounterAWidth,
            });
        }
        if met.underflow_b {
            self.met(match (met.modes.1, before.turn) {
                (Mode::Interval, _) => Kind::CounterBInterval,
                (Mode::Pulse, Turn::B) => Kind::CounterBPulseB,
                (Mode::Pulse, Turn::C) => Kind::CounterBPulseC,
                (Mode::Event, _) => Kind::CounterBEvent,
                (Mode::Input, _) => Kind::CounterBRetrigger,
            });
        }
        let retriggered = met.modes.1 == Mode::Input && rise;
        self.met_if(retriggered, Kind::Retriggered);
        self.met_if(retriggered && before.counter_b == 0, Kind::RetriggeredAtZero);
        self.met_if(met.underflow_a && met.underflow_b, Kind::BothUnderflow);
        self.met_if((met.underflow_a || met.underflow_b) && reset_low, Kind::UnderflowUnderReset);
    }

    /// A tick with RES high.
    fn serial(&mut self, before: &State, after: &State) {
        let sccr = before.sccr;
        self.met_if(transmitter_on(sccr) || receiver_on(sccr), Kind::Tick);
        if asynchronous_transmitter_on(sccr) {
            self.transmitter(before);
        }
        if asynchronous_receiver_on(sccr) && before.receiver.half == 1 {
            self.receiver(before, level(after.last, PIN_PA7));
        }
    }

    fn transmitter(&mut self, before: &State) {
        let waiting = before.scsr & SCSR_EMPTY == 0;
        let idle = before.transmitter.bits_left == 0;
        let ends = before.transmitter.bits_left == 1 && before.transmitter.phase == 15;
        self.met_if(idle && waiting, Kind::Taken);
        self.met_if(ends && waiting, Kind::TakenAtEnd);
        self.met_if(ends && !waiting, Kind::FrameEnded);
        if waiting && (idle || ends) {
            self.sent[format(before.sccr)] += 1;
        }
    }

    /// A look at PA7.
    fn receiver(&mut self, before: &State, line: bool) {
        let receiver = &before.receiver;
        if receiver.bits_left == 0 {
            self.met_if(!line && receiver.sub_interval >= 3, Kind::StartSeen);
            self.met_if(line && (1..=3).contains(&receiver.sub_interval), Kind::FalseStart);
            return;
        }
        if receiver.bits_left > 1 || receiver.sub_interval < 7 {
            return;
        }
        let register = receiver.register >> 1 | u16::from(line) << 10;
        let (_, faults) = judge_character(before.sccr, register);
        self.met_if(before.scsr & SCSR_FULL != 0, Kind::CharacterOverrun);
        self.met(match (faults & SCSR_PARITY != 0, faults & SCSR_FRAMING != 0) {
            (false, false) => Kind::CharacterRight,
            (true, false) => Kind::CharacterParity,
            (false, true) => Kind::CharacterFraming,
            (true, true) => Kind::CharacterBoth,
        });
        self.met_if(byte_being_sent(before), Kind::CharacterInShift);
        self.received[format(before.sccr)] += 1;
    }

    /// Either half in shift-register mode: a tick, a rise of PA4, RES low.
    fn shift_register(&mut self, before: &State, after: &State, report: &ClockReport) {
        self.shifted.clock(before, after, report);
        self.shift_sender(before, after, report);
        if receiver_shift(before, after) {
            self.shift_receiver(before, after, report);
        }
        if !level(after.last, PIN_RES) {
            let rise = level(rises(before.last, after.last), PIN_PA4);
            self.met_if(byte_being_sent(before), Kind::ResetStopsSent);
            self.met_if(byte_being_received(before), Kind::ResetStopsReceived);
            self.met_if(rise && shift_receiver_on(before.sccr), Kind::RiseUnderReset);
        }
        let rose = !driven_word(before) & driven_word(after) & PA4 != 0;
        self.pa4_risen = if rose { rise_of_drive(before, after, report) } else { None };
    }

    fn shift_sender(&mut self, before: &State, after: &State, report: &ClockReport) {
        let Some(tick) = sender_tick(before, after, report) else { return };
        let waiting = before.scsr & SCSR_EMPTY == 0;
        let drive = driven_word(before) & PA4;
        self.met_if(tick.take && !tick.end, Kind::ShiftTaken);
        self.met_if(tick.take && tick.end, Kind::ShiftTakenAtEnd);
        self.met_if(tick.end && !waiting, Kind::ShiftEnded);
        self.met_if(tick.end && receiver_on(before.sccr), Kind::ShiftSentListening);
        self.met_if(tick.shift && before.transmitter.bits_left > 8, Kind::ShiftBeyond);
        self.met_if(drive != u32::from(before.ports[0]) & PA4, Kind::ClockUnlikeLatch);
        self.met_if(drive != 0 && !level(after.external, PIN_PA4), Kind::ClockHeld);
        self.shift_sent[form(before.sccr)] += u64::from(tick.end);
    }

    /// A bit received.
    fn shift_receiver(&mut self, before: &State, after: &State, report: &ClockReport) {
        let by_input = level(rises(before.external, after.external), PIN_PA4);
        let cause = if by_input { Some(Kind::ShiftByInput) } else { self.pa4_risen };
        if let Some(kind) = cause {
            self.met(kind);
        }
        self.met_if(report.met.modes.0 == Mode::Event, Kind::ShiftCounted);
        self.met_if(report.met.underflow_a, Kind::ShiftAndTick);
        self.met_if(before.receiver.bits_left > 8, Kind::ShiftBeyondReceived);
        if before.receiver.bits_left == 1 {
            let full = before.scsr & SCSR_FULL != 0;
            let sending = asynchronous_transmitter_on(before.sccr) && before.transmitter.bits_left > 0;
            self.met(if full { Kind::ShiftOverrun } else { Kind::ShiftReceived });
            self.met_if(sending, Kind::ShiftReceivedSending);
            self.shift_received[form(before.sccr)] += 1;
        }
    }

    /// A byte that begins to wait, waits, is put or is dropped.
    fn store(&mut self, before: &State, after: &State, report: &ClockReport) {
        self.met_if(self.put_last && report.start == Some(Start::Irq), Kind::PutBeforeIrq);
        self.put_last = report.put.is_some();
        if let Some(byte) = report.put {
            self.put(before, after, report, byte);
        } else if let Some(byte) = before.waiting {
            let dropped = after.waiting.is_none();
            self.met_if(dropped && before.wait > 1, Kind::Dropped);
            self.met_if(dropped && before.wait == 1, Kind::DroppedLast);
            self.met_if(dropped && self.halts.address == Some(byte.address), Kind::HaltDropped);
            self.met_if(!dropped && level(falls(before.last, after.last), PIN_NMI), Kind::WaitingNmi);
            self.met_if(!dropped && (report.met.underflow_a || report.met.underflow_b), Kind::WaitingTick);
        } else if after.waiting.is_some() {
            let read = report.accesses.list().iter().find(|access| access.kind == AccessKind::ReadToModify);
            self.waiting = read.map_or(Waiter::Store, |access| Waiter::Modify(access.value));
        }
    }

    fn put(&mut self, before: &State, after: &State, report: &ClockReport, byte: Waiting) {
        let register = byte.address < 0x40;
        let (a, b) = (report.met.underflow_a, report.met.underflow_b);
        let modified = if let Waiter::Modify(read) = self.waiting { Some(read) } else { None };
        self.met_if(!register, Kind::PutMemory);
        self.met_if(register, Kind::PutRegister);
        self.met_if(register && modified.is_some(), Kind::PutModified);
        let inverted = byte.address == 0 && modified.is_some_and(|read| read != before.ports[0]);
        self.met_if(inverted, Kind::PutOverInverted);
        self.met_if(self.waiting == Waiter::Lent, Kind::PutLent);
        self.met_if(report.accesses.list()[0].writes_the_same(), Kind::PutSame);
        self.met_if(!register && byte.address == after.pc, Kind::PutCode);
        self.met_if(a || b, Kind::PutUnderflow);
        self.met_if(report.met.inputs > 0, Kind::PutInput);
        self.met_if(byte.address == 0x1A && a || byte.address == 0x1E && b, Kind::PutLoad);
        self.met_if(self.halts.full_put && self.call_clocks == 1, Kind::PutAfterFull);
        self.halts.full_put = false;
    }

    /// A done clock that does not write at the halt address.
    fn halt_address_unmet(&mut self, after: &State, report: &ClockReport) {
        let Some(address) = self.halts.address else { return };
        if report.accesses.writes(address) {
            return;
        }
        self.met_if(report.accesses.list().iter().any(|access| access.address == address), Kind::HaltRead);
        self.met_if(report.start == Some(Start::Reset) && u16::from(after.sp) == address, Kind::HaltReset);
    }

    fn entry(&mut self, after: &State, report: &ClockReport, start: Start) {
        self.met_if(report.undefined_kept, Kind::EntryOverUndefined);
        let due = interrupt_flags(after) & after.ier;
        match start {
            Start::Reset => self.met(Kind::ResetEntry),
            Start::Nmi => {
                self.met(Kind::NmiEntry);
                self.met_if(due != 0, Kind::NmiOverIrq);
            }
            _ => {
                let kinds =
                    [Kind::Irq0, Kind::Irq1, Kind::Irq2, Kind::Irq3, Kind::Irq4, Kind::Irq5, Kind::Irq6, Kind::Irq7];
                for (bit, kind) in kinds.into_iter().enumerate() {
                    self.met_if(due >> bit & 1 == 1, kind);
                }
            }
        }
        let pushed = report.accesses.list().iter().any(|a| a.kind == AccessKind::Write && a.address < 0x40);
        self.met_if(pushed, Kind::PushRegister);
    }

    fn instruction(&mut self, before: &State, after: &State, report: &ClockReport) {
        let Some(opcode) = report.opcode else { return };
        self.opcodes[usize::from(opcode)] += 1;
        let entry = TABLE[usize::from(opcode)];
        let accesses = report.accesses.list();
        let extra = (after.wait + 1).saturating_sub(entry.length);
        let in_registers = before.pc < 0x40;
        self.met_if(in_registers, Kind::FetchRegister);
        let operand = before.pc.wrapping_add(1);
        let reads_operand = accesses.len() > 1 && accesses[1].address == operand;
        self.met_if(!in_registers && operand < 0x40 && reads_operand, Kind::OperandRegister);
        let brk_at_data = before.pc == 0x17 && opcode == 0x00 && before.ifr & 0x10 != 0;
        self.met_if(brk_at_data, Kind::BrkAtData);
        self.met_if(before.pc == 0xFFFF, Kind::PcWraps);
        self.met_if(before.p & FLAG_D != 0 && entry.operation == Operation::Adc, Kind::DecimalAdc);
        self.met_if(before.p & FLAG_D != 0 && entry.operation == Operation::Sbc, Kind::DecimalSbc);
        if matches!(entry.addressing, Addressing::Relative | Addressing::ZeroPageRelative) {
            self.met_if(extra == 1, Kind::BranchSame);
            self.met_if(extra == 2, Kind::BranchOther);
        } else {
            self.met_if(extra == 1, Kind::PageCrossed);
        }
        if entry.addressing == Addressing::Indirect {
            let pointer = accesses[3].address;
            self.met_if(pointer & 0xFF == 0xFF, Kind::JmpPageEnd);
            self.met_if(pointer == 0xFFFF, Kind::JmpTop);
            self.met_if(pointer == 0x00FF, Kind::JmpPortA);
            self.met_if(pointer == 0x003F, Kind::JmpRegisters);
        }
        self.stack(before, after, entry.operation, accesses.iter().any(|a| written_at(a, 0, 0x40)));
        let high = before.pc.wrapping_add(2);
        let over = accesses.iter().any(|a| written_at(a, high, high.wrapping_add(1)));
        self.met_if(entry.operation == Operation::Jsr && high >= 0x40 && over, Kind::JsrOverCode);
    }

    fn stack(&mut self, before: &State, after: &State, operation: Operation, writes_register: bool) {
        use Operation::*;
        self.met_if(matches!(operation, Brk | Jsr | Pha | Php) && writes_register, Kind::PushRegister);
        let pulls = matches!(operation, Pla | Plp | Rti | Rts);
        self.met_if(pulls && before.sp.wrapping_add(1) <= after.sp && after.sp < 0x40, Kind::PullRegister);
    }

    fn accesses(&mut self, before: &State, report: &ClockReport) {
        for access in report.accesses.list() {
            if access.address >= 0x40 {
                continue;
            }
            let register = access.address as u8;
            let kind = match access.kind {
                AccessKind::Read => 0,
                AccessKind::ReadToModify => 1,
                AccessKind::Write => 2,
            };
            self.registers[kind][usize::from(register)] += 1;
            match access.kind {
                AccessKind::ReadToModify if register < 4 => {
                    let levels = (before.last >> (8 * register)) as u8;
                    self.met_if(levels != access.value, Kind::ModifyPort);
                }
                AccessKind::Write => self.written(before, register, access.value),
                _ => self.met_if(register == 0x17 && before.scsr & 0x0F != 0, Kind::StatusCleared),
            }
        }
    }

    /// A write of a register, judged by the state before the clock.
    fn written(&mut self, before: &State, register: u8, value: u8) {
        let mode_before = mode_a(before);
        let latch_low = before.ports[0] & 0x10 == 0;
        match register {
            0x14 => {
                let after = State { mcr: value, ..before.clone() };
                let entered = mode_before != Mode::Pulse && mode_a(&after) == Mode::Pulse;
                self.met_if(entered && latch_low, Kind::EnterPulseMcr);
            }
            0x15 => {
                let after = State { sccr: value, ..before.clone() };
                let entered = mode_before != Mode::Pulse && mode_a(&after) == Mode::Pulse;
                self.met_if(entered && latch_low, Kind::EnterPulseSccr);
                self.control_written(before, value);
            }
            0x00 => self.met_if(shift_sender_on(before.sccr), Kind::ClockPortWritten),
            0x17 => self.met_if(before.scsr & SCSR_END != 0, Kind::EndCleared),
            0x1A => self.met_if(mode_before == Mode::Pulse, Kind::LoadAPulse),
            0x1E => self.met_if(before.mcr >> 2 & 3 == 1, Kind::LoadBPulse),
            _ => {}
        }
    }

    /// A write of SCCR while a frame, a character or a byte is under way.
    fn control_written(&mut self, before: &State, value: u8) {
        let same = before.sccr == value;
        let (sending, receiving) = (before.transmitter.bits_left > 0, before.receiver.bits_left > 0);
        if asynchronous_transmitter_on(before.sccr) && sending {
            let other = format(before.sccr) != format(value);
            self.met_if(!asynchronous_transmitter_on(value), Kind::SccrStopsTransmitter);
            self.met_if(asynchronous_transmitter_on(value) && other, Kind::SccrKeepsFrame);
            self.met_if(transmitter_on(value) && transmitter_shifts(value), Kind::SccrFrameToShift);
        }
        if asynchronous_receiver_on(before.sccr) && receiving {
            self.met_if(!asynchronous_receiver_on(value), Kind::SccrStopsReceiver);
            self.met_if(receiver_on(value) && receiver_shifts(value), Kind::SccrCharacterToShift);
        }
        if byte_being_sent(before) {
            self.met(Kind::SccrStopsSent);
            self.met_if(same, Kind::SccrStopsSentSame);
            self.met_if(asynchronous_transmitter_on(value), Kind::SccrSentToFrames);
        }
        if byte_being_received(before) {
            self.met(Kind::SccrStopsReceived);
            self.met_if(same, Kind::SccrStopsReceivedSame);
            self.met_if(asynchronous_receiver_on(value), Kind::SccrReceivedToCharacters);
            self.met_if(asynchronous_receiver_on(value) && value & 0x10 != 0, Kind::Sccr5BesideSccr4);
        }
    }

    fn record(&mut self, before: &State, report: &ClockReport, after: &State) {
        let met = &report.met;
        let entry = report.start.is_some() && report.start != Some(Start::Instruction);
        self.met_if(report.start == Some(Start::Instruction), Kind::ByInstruction);
        self.met_if(report.put.is_some(), Kind::ByPut);
        self.met_if(entry, Kind::ByEntry);
        self.met_if(met.underflow_a && report.start.is_none(), Kind::ByUnderflowA);
        self.met_if(met.underflow_b && report.start.is_none(), Kind::ByUnderflowB);
        self.met_if(met.reset_changes, Kind::ByReset);
        let line = (driven_word(before) ^ driven_word(after)) & 0x40 != 0;
        self.met_if(line && met.underflow_a && before.sccr == after.sccr && before.sccr & 0x80 != 0, Kind::ByLine);
        self.met_if(met.inputs > 0, Kind::ByInput);
        self.met_if(met.levels_differ && met.inputs == 0, Kind::ByLevels);
    }

    pub fn add(&mut self, other: &Coverage) {
        add_all(&mut self.counts, &other.counts);
        for i in 0..2 {
            add_all(&mut self.numbers[i], &other.numbers[i]);
        }
        add_all(&mut self.opcodes, &other.opcodes);
        for i in 0..3 {
            add_all(&mut self.registers[i], &other.registers[i]);
        }
        add_all(&mut self.sent, &other.sent);
        add_all(&mut self.received, &other.received);
        add_all(&mut self.shift_sent, &other.shift_sent);
        add_all(&mut self.shift_received, &other.shift_received);
        self.shifted.add(&other.shifted);
        self.scenarios += other.scenarios;
        self.calls += other.calls;
        self.clocks += other.clocks;
        self.longest_gap = self.longest_gap.max(other.longest_gap);
    }

    /// The table: each kind and its count.
    pub fn rows(&self) -> Vec<(String, u64)> {
        let mut rows = Vec::new();
        for number in (0..8).chain([12, 13]) {
            rows.push((format!("number {number}: by step"), self.numbers[0][number]));
            rows.push((format!("number {number}: by run"), self.numbers[1][number]));
        }
        rows.extend(TEXTS.iter().zip(self.counts).map(|(text, count)| (text.to_string(), count)));
        let opcodes = (0..256).filter(|&o| defined(o as u8)).map(|o| (format!("opcode {o:02X}h"), self.opcodes[o]));
        rows.push(least("least executed of the 183 opcodes", opcodes));
        for (kind, name) in ["read", "read to be modified", "written"].iter().enumerate() {
            let registers = (0..64).map(|r| (format!("{r:02X}h"), self.registers[kind][r]));
            rows.push(least(&format!("least {name} of the 64 registers"), registers));
        }
        rows.push(least("least sent of the 12 formats", formats(&self.sent)));
        rows.push(least("least received of the 12 formats", formats(&self.received)));
        rows.push(least("shift: least sent by SCCR0 to SCCR3", forms(&self.shift_sent)));
        rows.push(least("shift: least received by SCCR0 to SCCR3", forms(&self.shift_received)));
        rows.push(("shift: bytes sent whole".to_string(), self.shifted.sent));
        rows.push(("shift: bytes received whole".to_string(), self.shifted.received));
        rows
    }

    pub fn longest_gap(&self) -> u64 {
        self.longest_gap
    }
}

/// Whether an input of the next clock makes RES low, or RES is low already.
fn falls_next(world: &World) -> bool {
    let next = world.state.clock.wrapping_add(1);
    let inputs = world.input_clocks[world.read..].iter().zip(&world.input_codes[world.read..]);
    let named = inputs.take_while(|(&clock, _)| clock == next).any(|(_, &code)| code == 33);
    named || !level(world.state.external, PIN_RES)
}

/// Whether the next clock, given an entry, halts.
fn halts_with_space(world: &World, halt: Option<u16>) -> bool {
    let mut world = world.clone();
    world.output_clocks.push(0);
    world.output_words.push(0);
    run(&mut world, 1, halt).number == 12
}

/// Whether the next clock needs a record and none is free.
fn full_next(world: &World) -> bool {
    world.written == world.output_clocks.len() && run(&mut world.clone(), 1, None).number == 7
}

/// Whether the next clock would start an undefined opcode.
fn undefined_next(world: &World) -> bool {
    run(&mut world.clone(), 1, None).number == 6
}

/// Whether the next clock is the last one of a store, RES not being low on it.
fn puts_next(world: &World) -> bool {
    world.state.wait == 1 && world.state.waiting.is_some() && !falls_next(world)
}

/// 01, Machine state: "unassigned registers read FFh and ignore writes"; 11h has no write.
fn ignores(register: u16) -> bool {
    !matches!(register, 0x00..=0x03 | 0x10 | 0x12 | 0x14..=0x1A | 0x1C..=0x1E)
}

const PA4: u32 = 1 << PIN_PA4;

/// Whether a sender in shift-register mode has bits left.
fn byte_being_sent(state: &State) -> bool {
    shift_sender_on(state.sccr) && state.transmitter.bits_left > 0
}

/// Whether a receiver in shift-register mode has bits left.
fn byte_being_received(state: &State) -> bool {
    shift_receiver_on(state.sccr) && state.receiver.bits_left > 0
}

/// What makes PA4's drive rise on a clock, so that PA4 may rise on the next.
fn rise_of_drive(before: &State, after: &State, report: &ClockReport) -> Option<Kind> {
    let accesses = report.accesses.list();
    let written = |register: u16| accesses.iter().any(|access| written_at(access, register, register + 1));
    let (clock_before, clock_after) = (shift_sender_on(before.sccr), shift_sender_on(after.sccr));
    if written(0x00) && !clock_after {
        Some(Kind::ShiftByPort)
    } else if written(0x15) && clock_before && !clock_after {
        Some(Kind::ShiftBySccr)
    } else if written(0x14) || written(0x15) {
        Some(Kind::ShiftByMode)
    } else if report.met.modes.0 == Mode::Pulse && written(0x1A) {
        Some(Kind::ShiftByLoad)
    } else if report.met.modes.0 == Mode::Pulse && report.met.underflow_a {
        Some(Kind::ShiftByPulse)
    } else {
        None
    }
}

fn written_at(access: &plain_clock::accesses::Access, from: u16, to: u16) -> bool {
    access.kind == AccessKind::Write && (from..to).contains(&access.address)
}

fn format(sccr: u8) -> usize {
    let parity = if !parity_enabled(sccr) { 0 } else { 1 + usize::from(sccr & 1) };
    usize::from(data_bits(sccr) - 5) * 3 + parity
}

fn form(sccr: u8) -> usize {
    usize::from(sccr & 0x0F)
}

fn forms(counts: &[u64; FORMS]) -> impl Iterator<Item = (String, u64)> + '_ {
    counts.iter().enumerate().map(|(form, &count)| (format!("{form:X}h"), count))
}

fn formats(counts: &[u64; FORMATS]) -> impl Iterator<Item = (String, u64)> + '_ {
    let parities = ["no parity", "odd", "even"];
    (0..FORMATS).map(move |i| (format!("{} bits, {}", i / 3 + 5, parities[i % 3]), counts[i]))
}

fn least(text: &str, counts: impl Iterator<Item = (String, u64)>) -> (String, u64) {
    let (name, count) = counts.min_by_key(|row| row.1).expect("rows");
    (format!("{text}: {name}"), count)
}

fn add_all(to: &mut [u64], from: &[u64]) {
    for (sum, count) in to.iter_mut().zip(from) {
        *sum += count;
    }
}
