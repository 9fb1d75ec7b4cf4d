//! Page sums beside the memory (document 02, U7): the calls with sums do what those lacking them do, and each sum
//! changes by what its page's bytes change.
use r6501q::{code, load, load_with_sums, page_sums, run, run_with_sums, step, step_with_sums, total};
use r6501q::{CallResult, Chip, LoadResult, Number, State, Waiting};
use r6501q::{MEMORY_LENGTH, PIN_NMI, PIN_RES, RELEASE, SUMS_LENGTH};

// What a call is lent, beside the state.
#[derive(Clone, PartialEq, Debug)]
struct Lent {
    memory: Vec<u8>,
    sums: Vec<u16>,
    clocks: Vec<u32>,
    codes: Vec<u8>,
    output_clocks: Vec<u32>,
    output_words: Vec<u32>,
    halt: Option<u16>,
}

impl Lent {
    fn run_with_sums(&mut self, state: State, n: u32) -> CallResult {
        let (output_clocks, output_words) = (&mut self.output_clocks, &mut self.output_words);
        let (memory, sums) = (&mut self.memory, &mut self.sums);
        run_with_sums(state, memory, sums, &self.clocks, &self.codes, output_clocks, output_words, n, self.halt)
    }

    fn step_with_sums(&mut self, state: State) -> CallResult {
        let (output_clocks, output_words) = (&mut self.output_clocks, &mut self.output_words);
        let (memory, sums) = (&mut self.memory, &mut self.sums);
        step_with_sums(state, memory, sums, &self.clocks, &self.codes, output_clocks, output_words, self.halt)
    }

    fn run(&mut self, state: State, n: u32) -> CallResult {
        let (output_clocks, output_words) = (&mut self.output_clocks, &mut self.output_words);
        run(state, &mut self.memory, &self.clocks, &self.codes, output_clocks, output_words, n, self.halt)
    }

    fn step(&mut self, state: State) -> CallResult {
        let (output_clocks, output_words) = (&mut self.output_clocks, &mut self.output_words);
        step(state, &mut self.memory, &self.clocks, &self.codes, output_clocks, output_words, self.halt)
    }
}

// The sum of a page's bytes.
fn page(memory: &[u8], p: usize) -> i64 {
    memory[256 * p..256 * (p + 1)].iter().map(|byte| i64::from(*byte)).sum()
}

// What becomes of sums where memory changes.
fn changed(sums: &[u16], before: &[u8], after: &[u8]) -> Vec<u16> {
    let change = |p: usize| i64::from(sums[p]) + page(after, p) - page(before, p);
    (0..SUMS_LENGTH).map(|p| change(p).rem_euclid(65_536) as u16).collect()
}

fn wrong_sums() -> Vec<u16> {
    (0..256u32).map(|p| (p * 40_503 + 65_530) as u16).collect()
}

// Writes in pages 0, 1, 12h and FFh, pushes, a register, and a byte that stays the same; a store that wraps a sum each
// way; NMI on clock 60. Then again.
fn busy() -> Lent {
    let mut memory = vec![0; MEMORY_LENGTH];
    let program = [
        0xE6, 0x40, // INC 40h
        0xEE, 0x34, 0x12, // INC 1234h
        0xCE, 0xFF, 0x01, // DEC 01FFh
        0x8D, 0xF0, 0xFF, // STA FFF0h, the same byte after the first time
        0x85, 0x00, // STA port A
        0x48, // PHA
        0x20, 0x12, 0x02, // JSR 0212h
        0x00, // (not reached)
        0x68, 0x68, 0x68, // PLA three times
        0x69, 0x07, // ADC #07h
        0x4C, 0x00, 0x02, // JMP 0200h
    ];
    memory[0x0200..0x0200 + program.len()].copy_from_slice(&program);
    memory[0x0300..0x0303].copy_from_slice(&[0xEE, 0x00, 0x80]); // NMI: INC 8000h
    memory[0x0303] = 0x40; // RTI
    (memory[0xFFFB], memory[0xFFFD], memory[0x1234], memory[0x3F]) = (3, 2, 0xFF, 0x99);
    Lent {
        memory,
        sums: wrong_sums(),
        clocks: vec![RELEASE.0, 60, 90],
        codes: vec![RELEASE.1, code(PIN_NMI, false), code(PIN_RES, false)],
        output_clocks: vec![7; 40],
        output_words: vec![9; 40],
        halt: None,
    }
}

#[test]
fn a_run_with_sums_is_the_run_lacking_them() {
    let halts = [None, Some(0x0000), Some(0x0040), Some(0x00FE), Some(0x1234), Some(0x8000)];
    for (n, halt) in (0..120).flat_map(|n| halts.map(|halt| (n, halt))) {
        let space = [0, 1, 40][n as usize % 3];
        let mut lent = Lent { halt, ..busy() };
        lent.output_clocks.truncate(space);
        lent.output_words.truncate(space);
        let before = lent.clone();
        let mut plain = lent.clone();
        let result = lent.run_with_sums(State::fresh(), n);
        assert_eq!(result, plain.run(State::fresh(), n), "{n} clocks, halt {halt:?}, space {space}");
        plain.sums = changed(&before.sums, &before.memory, &plain.memory);
        assert_eq!(lent, plain, "{n} clocks, halt {halt:?}, space {space}");
    }
}

#[test]
fn changes_of_calls_add_up_and_right_sums_stay_right() {
    let whole = {
        let mut lent = busy();
        assert_eq!(lent.run_with_sums(State::fresh(), 200).number, Number::Done);
        lent
    };
    for sums in [wrong_sums(), page_sums(&busy().memory).to_vec(), vec![0; 256], vec![u16::MAX; 256]] {
        let mut lent = Lent { sums: sums.clone(), ..busy() };
        let mut plain = lent.clone();
        let (mut state, mut used) = (State::fresh(), 0);
        for _ in 0..200 {
            let result = lent.step_with_sums(state);
            assert_eq!(result, plain.step(state));
            assert_eq!((result.number, result.leaps), (Number::Done, 1));
            assert_eq!(lent.sums, changed(&sums, &busy().memory, &lent.memory));
            state = result.state;
            for lent in [&mut lent, &mut plain] {
                lent.clocks.drain(..result.read);
                lent.codes.drain(..result.read);
                lent.output_clocks.drain(..result.written);
                lent.output_words.drain(..result.written);
            }
            used += result.written;
        }
        assert_eq!((&lent.memory, used > 0), (&whole.memory, true));
        assert_eq!(lent.memory, plain.memory);
        if sums == page_sums(&busy().memory) {
            assert_eq!(lent.sums, page_sums(&lent.memory));
        }
    }
    assert_eq!(whole.sums, changed(&wrong_sums(), &busy().memory, &whole.memory));
}

// A chip of which the next clock puts a byte, or the next but one.
fn waiting(wait: u8, address: u16, value: u8) -> State {
    let mut state = State::fresh();
    (state.external.res, state.last.res) = (1, 1);
    (state.cpu.wait, state.cpu.waiting) = (wait, Waiting::byte(address, value));
    state
}

fn zeros() -> Lent {
    Lent {
        memory: vec![0; MEMORY_LENGTH],
        sums: vec![0; SUMS_LENGTH],
        clocks: vec![],
        codes: vec![],
        output_clocks: vec![1; 2],
        output_words: vec![1; 2],
        halt: None,
    }
}

#[test]
fn the_page_is_that_of_the_address() {
    for address in [0x0040, 0x00FF, 0x0100, 0x01FF, 0x12FF, 0x3400, 0x7F80, 0xFE01, 0xFF00, 0xFFFF] {
        let mut lent = zeros();
        lent.memory[usize::from(address)] = 0x10;
        let result = lent.step_with_sums(waiting(1, address, 0x05));
        assert_eq!((result.number, lent.memory[usize::from(address)]), (Number::Done, 0x05));
        let page = usize::from(address >> 8);
        let expected: Vec<u16> = (0..256).map(|p| if p == page { 65_525 } else { 0 }).collect();
        assert_eq!(lent.sums, expected, "{address:04X}h");
    }
}

#[test]
fn a_register_written_changes_no_sum() {
    for address in 0..0x40 {
        let mut lent = zeros();
        lent.memory[usize::from(address)] = 0x10; // never touched
        let result = lent.run_with_sums(waiting(1, address, 0x05), 1);
        assert_eq!((result.number, result.state.cpu.waiting), (Number::Done, Waiting::NONE));
        assert_eq!((lent.memory[usize::from(address)], &lent.sums), (0x10, &vec![0; 256]));
    }
}

#[test]
fn a_byte_counts_where_it_is_put() {
    let mut lent = zeros();
    let result = lent.run_with_sums(waiting(3, 0x4000, 0x55), 2);
    assert_eq!((result.number, lent.sums[0x40]), (Number::Done, 0));
    let mut dropped = Lent { clocks: vec![3], codes: vec![code(PIN_RES, false)], ..lent.clone() };
    assert_eq!(dropped.run_with_sums(result.state, 2).number, Number::Done);
    assert_eq!((dropped.memory[0x4000], dropped.sums[0x40]), (0, 0));
    let result = lent.run_with_sums(result.state, 1);
    assert_eq!((result.number, lent.memory[0x4000], lent.sums[0x40]), (Number::Done, 0x55, 0x55));
}

#[test]
fn a_page_list_not_of_256_is_13_between_1_and_2() {
    let good = busy();
    let mut damaged = State::fresh();
    damaged.cpu.wait = 7;
    let mut flagged = State::fresh();
    flagged.last.res = 2;
    let mut late = State::fresh();
    late.clock = u32::MAX;
    let mut unequal = good.clone();
    unequal.codes.pop();
    for length in [0, 1, 255, 257, 512, 65_536] {
        let sums = vec![0x1234; length];
        for (state, lent) in [
            (State::fresh(), &good),
            (damaged, &good),
            (flagged, &good),
            (late, &good),
            (State::fresh(), &unequal),
            (flagged, &unequal),
        ] {
            let lent = Lent { sums: sums.clone(), ..lent.clone() };
            let expected = CallResult { number: Number::WrongSumsLength, state, leaps: 0, read: 0, written: 0 };
            for n in [0, 1, 1_000] {
                let mut after = lent.clone();
                assert_eq!(after.run_with_sums(state, n), expected);
                assert_eq!(after, lent);
            }
            let mut after = lent.clone();
            assert_eq!(after.step_with_sums(state), expected);
            assert_eq!(after, lent);
            let mut short = Lent { memory: vec![7; 65_535], ..lent.clone() };
            let expected = CallResult { number: Number::WrongMemoryLength, ..expected };
            assert_eq!((short.run_with_sums(state, 5), short.step_with_sums(state)), (expected, expected));
            assert_eq!(short, Lent { memory: vec![7; 65_535], ..lent });
        }
        assert_eq!(total(&sums), Err(Number::WrongSumsLength));
    }
}

#[test]
fn other_refusals_leave_the_sums() {
    let mut damaged = State::fresh();
    damaged.cpu.wait = 7;
    let mut flagged = State::fresh();
    flagged.due.nmi = 2;
    let mut late = State::fresh();
    late.clock = u32::MAX;
    let mut unequal = busy();
    unequal.codes.pop();
    let wrong_pins = Lent { codes: vec![1, 2, 200], ..busy() };
    for (number, state, lent) in [
        (Number::StateNotWellFormed, damaged, busy()),
        (Number::StateNotWellFormed, flagged, busy()),
        (Number::UnequalLists, State::fresh(), unequal),
        (Number::ClockTooHigh, late, busy()),
        (Number::WrongPinList, State::fresh(), wrong_pins),
    ] {
        let mut after = lent.clone();
        let expected = CallResult { number, state, leaps: 0, read: 0, written: 0 };
        assert_eq!((after.run_with_sums(state, 9), after.step_with_sums(state)), (expected, expected));
        assert_eq!(after, lent);
    }
}

// A record of a tape, and a tape of some with its last record.
fn record(address: usize, data: &[u8]) -> String {
    let bytes: String = data.iter().map(|byte| format!("{byte:02X}")).collect();
    let sum = data.len() + address / 256 + address % 256 + data.iter().map(|byte| usize::from(*byte)).sum::<usize>();
    format!(";{:02X}{address:04X}{bytes}{:04X}", data.len(), sum % 65_536)
}

fn tape(records: &[(usize, &[u8])]) -> String {
    let records: Vec<String> = records.iter().map(|(address, data)| record(*address, data)).collect();
    format!("{}{}", records.concat(), record(records.len() + 1, &[]))
}

#[test]
fn tapes_with_sums() {
    let good = [
        tape(&[]),
        tape(&[(0x0200, &[0xA9, 0x55])]),
        tape(&[(0x003E, &[1, 2, 3, 4])]), // those for 3Eh and 3Fh are dropped
        tape(&[(0x0000, &[9; 24]), (0x0018, &[9; 24])]), // all of them
        tape(&[(0x01FE, &[1, 2, 3, 4])]), // over a page's end
        tape(&[(0xFFE8, &[0xFF; 24])]),   // up to the memory's
        tape(&[(0x4000, &[1, 2]), (0x4001, &[250]), (0x4000, &[7])]), // over one another
        tape(&[(0x7000, &[0x77; 24])]),   // what is there already
    ];
    for text in &good {
        let memory = vec![0x77; MEMORY_LENGTH];
        for sums in [wrong_sums(), page_sums(&memory).to_vec(), vec![0; 256]] {
            let (mut plain, mut summed, mut after) = (memory.clone(), memory.clone(), sums.clone());
            let loaded = load_with_sums(text.as_bytes(), &mut summed, &mut after);
            assert_eq!(loaded, load(text.as_bytes(), &mut plain), "{text}");
            assert_eq!(loaded, LoadResult { number: Number::Done, place: text.len() }, "{text}");
            assert_eq!((&summed, after), (&plain, changed(&sums, &memory, &plain)), "{text}");
        }
        for length in [0, 255, 257] {
            let (mut summed, mut after) = (memory.clone(), vec![0x1234; length]);
            let loaded = load_with_sums(text.as_bytes(), &mut summed, &mut after);
            assert_eq!(loaded, LoadResult { number: Number::WrongSumsLength, place: 0 });
            assert_eq!((summed == memory, &after), (true, &vec![0x1234; length]));
            let loaded = load_with_sums(text.as_bytes(), &mut summed[1..], &mut after);
            assert_eq!(loaded, LoadResult { number: Number::WrongMemoryLength, place: 0 });
        }
    }
}

#[test]
fn refused_tapes_leave_the_sums() {
    let whole = tape(&[(0x0200, &[0xA9, 0x55]), (0x4000, &[1, 2, 3])]);
    let miscounted = [record(0x0200, &[1]), record(3, &[])].concat();
    let damaged = whole.replace("0200A955", "0200A956");
    let cut = |length: usize| whole[..length].to_string();
    for (text, number, place) in [
        (String::new(), Number::WrongLastRecord, 0),
        (cut(whole.len() - 1), Number::MalformedRecord, 32),
        (cut(32), Number::WrongLastRecord, 32),
        (damaged, Number::WrongCheckSum, 0),
        (miscounted, Number::WrongLastRecord, 13),
    ] {
        let (mut memory, mut sums) = (vec![0x77; MEMORY_LENGTH], wrong_sums());
        let loaded = load_with_sums(text.as_bytes(), &mut memory, &mut sums);
        assert_eq!(loaded, LoadResult { number, place }, "{text}");
        assert!(memory.iter().all(|byte| *byte == 0x77) && sums == wrong_sums());
        // 13 comes before any record.
        let loaded = load_with_sums(text.as_bytes(), &mut memory, &mut sums[..255]);
        assert_eq!(loaded, LoadResult { number: Number::WrongSumsLength, place: 0 });
    }
}

#[test]
fn totals() {
    let straight = |memory: &[u8]| (memory.iter().map(|byte| u64::from(*byte)).sum::<u64>() % 65_536) as u16;
    for step in [0u32, 1, 3, 77, 254, 255] {
        let memory: Vec<u8> = (0..65_536u32).map(|i| (i.wrapping_mul(step) >> 3) as u8 | step as u8).collect();
        let mut sums = page_sums(&memory);
        assert_eq!(total(&sums), Ok(straight(&memory)));
        sums.reverse();
        assert_eq!(total(&sums), Ok(straight(&memory)));
        let any_order: Vec<u16> = (0..256).map(|i| sums[(i * 77 + 5) % 256]).collect();
        assert_eq!(total(&any_order), Ok(straight(&memory)));
    }
    assert_eq!(total(&[u16::MAX; 256]), Ok(65_280)); // -256
    for p in 0..256 {
        let mut sums = [0; 256];
        sums[p] = 40_000;
        assert_eq!(total(&sums), Ok(40_000), "page {p}");
        sums[255 - p] += 25_536;
        assert_eq!(total(&sums), Ok(0), "page {p}");
    }
}

#[test]
fn a_chip_keeps_its_sums() {
    let mut chip = Chip::with(State::fresh(), busy().memory);
    chip.release();
    chip.keep_sums();
    chip.run(50).unwrap();
    chip.step().unwrap();
    chip.run_with(200_000, |_| {}).unwrap(); // more records than the first space holds
    chip.load(tape(&[(0x4000, &[1, 2, 3])]).as_bytes()).unwrap();
    assert_eq!(chip.sums.as_deref(), Some(&page_sums(&chip.memory)[..]));
    chip.halt = Some(0x0040);
    assert_eq!(chip.run(1_000), Err(Number::HaltedAtWrite));
    assert_eq!(chip.sums.as_deref(), Some(&page_sums(&chip.memory)[..]));
    chip.memory[0x5000] = 1; // not by a call
    assert_eq!(chip.sums.as_ref().unwrap()[0x50], 0);

    let (state, memory) = (chip.state, chip.memory.clone());
    chip.sums.as_mut().unwrap().pop();
    assert_eq!((chip.run(9), chip.step()), (Err(Number::WrongSumsLength), Err(Number::WrongSumsLength)));
    assert_eq!(chip.load(b"").map_err(|refused| refused.number), Err(Number::WrongSumsLength));
    assert_eq!((chip.state, chip.memory == memory), (state, true));
    chip.sums = None;
    assert_eq!(chip.step(), Ok(()));
    assert_eq!(Number::WrongSumsLength.to_string(), "the page list is not of 256 sums (13)");
}
