//! Each number of document 01, and 12 of document 02, from a call that earns it, and what stays unchanged.
use r6501q::{code, load, run, step, CallResult, LoadResult, Number, State, Waiting};
use r6501q::{MEMORY_LENGTH, PIN_NMI, PIN_RES, RELEASE};

// What a call is lent. Memory and output space are filled so that a change shows.
#[derive(Clone, PartialEq, Debug)]
struct Lent {
    memory: Vec<u8>,
    input_clocks: Vec<u32>,
    input_codes: Vec<u8>,
    output_clocks: Vec<u32>,
    output_words: Vec<u32>,
    halt: Option<u16>,
}

// These inputs behind the release of a fresh chip.
fn released(inputs: &[(u32, u8)]) -> (Vec<u32>, Vec<u8>) {
    std::iter::once(&RELEASE).chain(inputs).copied().unzip()
}

impl Lent {
    // Inputs and space that no check refuses. Memory: BRK at 0000h and everywhere.
    fn good() -> Lent {
        let (input_clocks, input_codes) =
            released(&[(3, code(0, false)), (3, code(PIN_NMI, false)), (8, code(PIN_NMI, true))]);
        Lent {
            memory: vec![0; MEMORY_LENGTH],
            input_clocks,
            input_codes,
            output_clocks: vec![0xAAAA_AAAA; 4],
            output_words: vec![0x5555_5555; 4],
            halt: None,
        }
    }

    fn run(&mut self, state: State, n: u32) -> CallResult {
        run(
            state,
            &mut self.memory,
            &self.input_clocks,
            &self.input_codes,
            &mut self.output_clocks,
            &mut self.output_words,
            n,
            self.halt,
        )
    }

    // What the next call is lent: the inputs without those that were read.
    fn without_read(&mut self, result: &CallResult) {
        self.input_clocks.drain(..result.read);
        self.input_codes.drain(..result.read);
    }

    fn step(&mut self, state: State) -> CallResult {
        step(
            state,
            &mut self.memory,
            &self.input_clocks,
            &self.input_codes,
            &mut self.output_clocks,
            &mut self.output_words,
            self.halt,
        )
    }
}

// Both calls refuse with the number, give back the state and leave everything unchanged, whatever the halt address; n =
// 0 is checked alike.
fn refused(number: Number, state: State, lent: Lent) {
    let expected = CallResult { number, state, leaps: 0, read: 0, written: 0 };
    for halt in [None, Some(0x0000), Some(0x00FF), Some(0xFFFF)] {
        let lent = Lent { halt, ..lent.clone() };
        for n in [0, 1, 1000] {
            let mut after = lent.clone();
            assert_eq!(after.run(state, n), expected, "run of {n}");
            assert_eq!(after, lent);
        }
        let mut after = lent.clone();
        assert_eq!(after.step(state), expected, "step");
        assert_eq!(after, lent);
    }
}

#[test]
fn good_inputs_are_not_refused() {
    let mut lent = Lent::good();
    let result = lent.run(State::fresh(), 10);
    assert_eq!((result.number, result.state.clock, result.read, result.written), (Number::Done, 10, 4, 0));
}

#[test]
fn wrong_memory_length_is_1() {
    for length in [0, 1, 65_535, 65_537, 131_072] {
        let lent = Lent { memory: vec![0; length], ..Lent::good() };
        refused(Number::WrongMemoryLength, State::fresh(), lent);
    }
}

// Every field that has a range, just past it. A byte waiting with wait 0, and two that are there and are not.
fn damaged() -> Vec<State> {
    let damages: [fn(&mut State); 24] = [
        |s| s.cpu.p = 16,
        |s| s.cpu.p = 32,
        |s| s.cpu.wait = 7,
        |s| s.cpu.waiting = Waiting::byte(0x0040, 0x55),
        |s| s.cpu.waiting = Waiting::byte(0, 0),
        |s| (s.cpu.wait, s.cpu.waiting.there) = (1, 2),
        |s| (s.cpu.wait, s.cpu.waiting.there) = (6, 255),
        |s| (s.cpu.wait, s.cpu.waiting.address) = (1, 0x0100),
        |s| (s.cpu.wait, s.cpu.waiting.value) = (1, 1),
        |s| s.due.reset = 2,
        |s| s.due.nmi = 255,
        |s| s.peripherals.counterb.turnc = 2,
        |s| s.peripherals.control.ifr = 64,
        |s| s.peripherals.transmitter.left = 13,
        |s| s.peripherals.transmitter.phase = 16,
        |s| s.peripherals.transmitter.register = 4096,
        |s| s.peripherals.receiver.subinterval = 8,
        |s| s.peripherals.receiver.half = 2,
        |s| s.peripherals.receiver.left = 12,
        |s| s.peripherals.receiver.register = 2048,
        |s| s.external.nmi = 2,
        |s| s.external.res = 128,
        |s| s.last.nmi = 3,
        |s| s.last.res = 2,
    ];
    damages
        .map(|damage| {
            let mut state = State::fresh();
            damage(&mut state);
            state
        })
        .to_vec()
}

#[test]
fn damaged_states_are_2() {
    for state in damaged() {
        assert!(!state.is_well_formed(), "{state:?}");
        refused(Number::StateNotWellFormed, state, Lent::good());
    }
}

#[test]
fn every_field_at_its_highest_is_well_formed() {
    let mut state = State::fresh();
    state.cpu.p = 0xCF;
    state.cpu.wait = 6;
    state.cpu.waiting = Waiting::byte(0xFFFF, 0xFF);
    state.due.nmi = 1;
    state.peripherals.control.ifr = 63;
    state.peripherals.transmitter.left = 12;
    state.peripherals.transmitter.phase = 15;
    state.peripherals.transmitter.register = 4095;
    state.peripherals.receiver.subinterval = 7;
    state.peripherals.receiver.half = 1;
    state.peripherals.receiver.left = 11;
    state.peripherals.receiver.register = 2047;
    (state.external.res, state.last.res) = (1, 1);
    assert!(state.is_well_formed());
    assert_eq!(Lent::good().run(state, 5).number, Number::Done);
}

#[test]
fn unequal_lists_are_3() {
    let mut lent = Lent::good();
    lent.input_codes.pop();
    refused(Number::UnequalLists, State::fresh(), lent);
    let mut lent = Lent::good();
    lent.input_clocks.clear();
    refused(Number::UnequalLists, State::fresh(), lent);
    let mut lent = Lent::good();
    lent.output_words.push(0);
    refused(Number::UnequalLists, State::fresh(), lent);
    let mut lent = Lent::good();
    lent.output_clocks.clear();
    refused(Number::UnequalLists, State::fresh(), lent);
}

#[test]
fn a_clock_past_the_last_is_4() {
    let mut lent = Lent { input_clocks: vec![], input_codes: vec![], ..Lent::good() };
    let before = lent.clone();
    let mut state = State::fresh();
    state.clock = u32::MAX - 2;
    let result = lent.run(state, 3);
    assert_eq!((result.number, result.state, result.leaps), (Number::ClockTooHigh, state, 0));
    assert_eq!(lent, before);
    assert_eq!(lent.run(state, u32::MAX).number, Number::ClockTooHigh);
    let result = lent.run(state, 2);
    assert_eq!((result.number, result.state.clock), (Number::Done, u32::MAX));
    assert_eq!(lent.run(result.state, 0).number, Number::Done);
    assert_eq!(lent.step(result.state).number, Number::ClockTooHigh);
}

#[test]
fn pin_lists_that_break_the_rule_are_5() {
    let wrong: [(&[u32], &[u8]); 9] = [
        (&[0], &[1]),                     // not above the state's clock
        (&[5, 4], &[1, 2]),               // clocks fall
        (&[5, 5], &[2, 1]),               // pins fall within a clock
        (&[5, 5], &[2, 2]),               // a pin twice
        (&[5, 5], &[2, 66]),              // a pin twice, with two levels
        (&[5], &[34]),                    // no pin
        (&[5], &[98]),                    // no pin, high
        (&[5], &[128]),                   // no code
        (&[5, 4_000_000_000], &[1, 255]), // no code, past any clock that is run
    ];
    for (input_clocks, input_codes) in wrong {
        let lent = Lent { input_clocks: input_clocks.to_vec(), input_codes: input_codes.to_vec(), ..Lent::good() };
        refused(Number::WrongPinList, State::fresh(), lent);
    }
}

#[test]
fn a_code_of_no_pin_is_refused() {
    for pin in 0..=u8::MAX {
        for high in [false, true] {
            let mut lent = Lent { input_clocks: vec![5], input_codes: vec![code(pin, high)], ..Lent::good() };
            let expected = if pin <= PIN_RES { Number::Done } else { Number::WrongPinList };
            assert_eq!(lent.run(State::fresh(), 0).number, expected);
        }
    }
}

#[test]
fn the_lowest_refusal_is_given() {
    let mut state = State::fresh();
    state.clock = u32::MAX;
    let mut lent = Lent { input_clocks: vec![1], input_codes: vec![200], ..Lent::good() };
    assert_eq!(lent.run(state, 1).number, Number::ClockTooHigh);
    lent.input_codes.clear();
    assert_eq!(lent.run(state, 1).number, Number::UnequalLists);
    state.last.res = 2;
    assert_eq!(lent.run(state, 1).number, Number::StateNotWellFormed);
    lent.memory.pop();
    assert_eq!(lent.run(state, 1).number, Number::WrongMemoryLength);
}

#[test]
fn an_undefined_opcode_is_6() {
    // 02h is undefined, and every vector leads to 0202h. The reset entry takes clocks 1 to 7, the NMI entry 8 to 14;
    // the fall of NMI came on clock 3. Event clocks are 1, 3 and 8.
    let mut lent = Lent { memory: vec![2; MEMORY_LENGTH], ..Lent::good() };
    let result = lent.run(State::fresh(), 100);
    assert_eq!((result.number, result.state.clock, result.leaps), (Number::UndefinedOpcode, 14, 4));
    assert_eq!((result.read, result.written), (4, 0));
    assert_eq!(lent.memory[0xFC..0x101], [2, 0x24, 2, 2, 2]); // P with bit 5, PC low, PC high
    let again = lent.step(result.state);
    assert_eq!(again.number, Number::WrongPinList); // the inputs read are behind the clock now
    (lent.input_clocks, lent.input_codes) = (vec![], vec![]);
    let again = lent.step(result.state);
    assert_eq!((again.number, again.state, again.leaps), (Number::UndefinedOpcode, result.state, 0));
}

#[test]
fn a_record_without_space_is_7() {
    // STA port A of 00h on clock 8: the word changes on its last clock, 10. Event clocks are 1 and 8.
    let mut lent = Lent { output_clocks: vec![], output_words: vec![], ..Lent::good() };
    (lent.input_clocks, lent.input_codes) = released(&[(10, code(0, false))]);
    lent.memory[0x200..0x205].copy_from_slice(&[0x85, 0x00, 0x4C, 0x02, 0x02]);
    lent.memory[0xFFFD] = 2;
    let result = lent.run(State::fresh(), 100);
    assert_eq!((result.number, result.state.clock, result.leaps), (Number::NoFreeRecord, 9, 3));
    assert_eq!((result.read, result.written), (1, 0));
    assert_eq!((result.state.cpu.wait, result.state.cpu.waiting), (1, Waiting::byte(0x0000, 0x00)));
    lent.without_read(&result);
    assert_eq!(lent.step(result.state).number, Number::NoFreeRecord);
    (lent.output_clocks, lent.output_words) = (vec![1; 2], vec![1; 2]);
    let result = lent.step(result.state);
    assert_eq!((result.number, result.state.clock, result.leaps, result.written), (Number::Done, 10, 1, 1));
    assert_eq!(result.state.cpu.waiting, Waiting::NONE);
    assert_eq!((lent.output_clocks, lent.output_words), (vec![10, 1], vec![0xFFFF_FF00, 1]));
}

// STA port A of 00h, put on clock 10, INC 40h, put on clock 15, then again; PB0 falls on clock 10.
fn writing() -> Lent {
    let (input_clocks, input_codes) = released(&[(10, code(8, false))]);
    let mut lent = Lent { input_clocks, input_codes, ..Lent::good() };
    lent.memory[0x200..0x207].copy_from_slice(&[0x85, 0x00, 0xE6, 0x40, 0x4C, 0x00, 0x02]);
    lent.memory[0xFFFD] = 2;
    lent
}

#[test]
fn a_write_at_the_halt_address_is_12() {
    let mut lent = Lent { halt: Some(0x0000), ..writing() };
    let result = lent.run(State::fresh(), 100);
    assert_eq!((result.number, result.state.clock, result.leaps), (Number::HaltedAtWrite, 10, 3));
    assert_eq!((result.read, result.written, result.state.cpu.wait), (2, 1, 0));
    assert_eq!((lent.output_clocks[0], lent.output_words[0]), (10, 0xFFFF_FF00));
    (lent.input_clocks, lent.input_codes, lent.halt) = (vec![], vec![], Some(0x0040));
    let result = lent.run(result.state, 5);
    assert_eq!((result.number, result.state.clock, lent.memory[0x40]), (Number::HaltedAtWrite, 15, 1));
    let result = lent.step(result.state);
    assert_eq!((result.number, result.state.clock), (Number::Done, 16));

    let mut lent = Lent { halt: Some(0x0000), ..writing() };
    assert_eq!(lent.run(State::fresh(), 10).number, Number::HaltedAtWrite);
    let mut lent = Lent { halt: Some(0x0000), ..writing() };
    let result = lent.run(State::fresh(), 9);
    assert_eq!(result.number, Number::Done);
    lent.without_read(&result);
    assert_eq!(lent.run(result.state, 0).number, Number::Done);
    let result = lent.step(result.state);
    assert_eq!((result.number, result.leaps, result.state.clock), (Number::HaltedAtWrite, 1, 10));
    for halt in [None, Some(0x0200), Some(0xFFFD)] {
        assert_eq!(Lent { halt, ..writing() }.run(State::fresh(), 100).number, Number::Done);
    }
}

#[test]
fn a_full_list_comes_before_a_halt() {
    let mut lent = Lent { halt: Some(0x0000), output_clocks: vec![], output_words: vec![], ..writing() };
    let result = lent.run(State::fresh(), 100);
    assert_eq!((result.number, result.state.clock, result.read), (Number::NoFreeRecord, 9, 1));
    lent.without_read(&result);
    (lent.output_clocks, lent.output_words) = (vec![1; 2], vec![1; 2]);
    let result = lent.run(result.state, 100);
    assert_eq!((result.number, result.state.clock, result.read), (Number::HaltedAtWrite, 10, 1));
    assert_eq!((lent.output_clocks, lent.output_words), (vec![10, 1], vec![0xFFFF_FF00, 1]));
}

#[test]
fn tapes() {
    let cases: [(&[u8], Number, usize); 13] = [
        (b";0000010001", Number::Done, 11),
        (b"..;0000010001 ;rest", Number::Done, 13),
        (b";070200A95585004C040201DE\n;02FFFC000201FF\n;0000030003", Number::Done, 53),
        (b";", Number::MalformedRecord, 0),
        (b"xx;00", Number::MalformedRecord, 2),
        (b" ;010200a50058;0000020002", Number::MalformedRecord, 1), // a lower-case digit
        (b";190000;0000020002", Number::MalformedRecord, 0),        // a count above 18h
        (b";02FFFF0000011F", Number::MalformedRecord, 0),           // past the last address; the check sum is wrong too
        (b";010200550059;0000020002", Number::WrongCheckSum, 0),
        (b";0000010002", Number::WrongCheckSum, 0),
        (b";010200550058 ;0000010001", Number::WrongLastRecord, 14),
        (b";010200550058", Number::WrongLastRecord, 13),
        (b"", Number::WrongLastRecord, 0),
    ];
    for (tape, number, place) in cases {
        let mut memory = vec![7; MEMORY_LENGTH];
        assert_eq!(load(tape, &mut memory), LoadResult { number, place }, "{}", String::from_utf8_lossy(tape));
        if number != Number::Done {
            assert!(memory.iter().all(|byte| *byte == 7));
        }
        let mut short = vec![7; MEMORY_LENGTH - 1];
        assert_eq!(load(tape, &mut short), LoadResult { number: Number::WrongMemoryLength, place: 0 });
        assert!(short.iter().all(|byte| *byte == 7));
    }
}

#[test]
fn a_loaded_tape_drops_the_registers_bytes() {
    // Four bytes from 003Eh: those at 3Eh and 3Fh are dropped.
    let mut memory = vec![7; MEMORY_LENGTH];
    assert_eq!(load(b";04003E01020304004C;0000020002", &mut memory).number, Number::Done);
    assert_eq!(memory[0x3E..0x43], [7, 7, 3, 4, 7]);
}

#[test]
fn a_run_and_its_single_clocks_end_the_same() {
    let mut whole = Lent::good();
    let result = whole.run(State::fresh(), 200);
    assert_eq!(result.number, Number::Done);
    let mut cut = Lent::good();
    let (mut state, mut read, mut written) = (State::fresh(), 0, 0);
    for _ in 0..200 {
        let result = step(
            state,
            &mut cut.memory,
            &cut.input_clocks[read..],
            &cut.input_codes[read..],
            &mut cut.output_clocks[written..],
            &mut cut.output_words[written..],
            cut.halt,
        );
        assert_eq!((result.number, result.leaps), (Number::Done, 1));
        state = result.state;
        read += result.read;
        written += result.written;
    }
    assert_eq!((state, read, written), (result.state, result.read, result.written));
    assert_eq!(cut, whole);
}
