//! A chip that owns its lists does what the plain calls do, and 7 never ends a run of it.
use r6501q::{run, Chip, Level, Number, Pin, Record, State, MEMORY_LENGTH, RELEASE};

// INC 00h, then again: a record each 8 clocks, the first on clock 12.
fn counting() -> Vec<u8> {
    let mut memory = vec![0; MEMORY_LENGTH];
    memory[0x0200..0x0205].copy_from_slice(&[0xE6, 0x00, 0x4C, 0x00, 0x02]);
    memory[0xFFFD] = 2;
    memory
}

// PB0 falls and rises by turns, each 7 clocks.
fn inputs(n: u32) -> impl Iterator<Item = (u32, Level)> {
    (1..=n).map(|i| (7 * i, Level::from(i % 2 == 0)))
}

// A fresh chip, released.
fn started() -> Chip {
    let mut chip = Chip::with(State::fresh(), counting());
    chip.release();
    chip
}

fn with_inputs(n: u32) -> Chip {
    let mut chip = started();
    for (clock, level) in inputs(n) {
        assert_eq!(chip.input(clock, Pin::PB0, level), Ok(()));
    }
    chip
}

// The same by one plain call with all the space that it needs.
fn plainly(n: u32) -> (State, Vec<u8>, Vec<Record>) {
    let mut memory = counting();
    let coded = inputs(n / 7 + 10).map(|(clock, level)| (clock, Pin::PB0.code(level)));
    let (clocks, codes): (Vec<u32>, Vec<u8>) = std::iter::once(RELEASE).chain(coded).unzip();
    let (mut output_clocks, mut output_words) = (vec![0; n as usize], vec![0; n as usize]);
    let result = run(State::fresh(), &mut memory, &clocks, &codes, &mut output_clocks, &mut output_words, n, None);
    assert_eq!(result.number, Number::Done);
    let records = output_clocks.into_iter().zip(output_words).take(result.written);
    (result.state, memory, records.map(|(clock, word)| Record { clock, word }).collect())
}

#[test]
fn a_run_makes_space_for_its_records() {
    let n = 200_000; // 24,999 records: several times the first space
    let mut chip = with_inputs(n / 7 + 10);
    assert_eq!(chip.run(n), Ok(()));
    let (state, memory, records) = plainly(n);
    assert_eq!((chip.state, chip.read()), (state, 1 + (n / 7) as usize));
    assert_eq!(chip.memory, memory);
    assert_eq!(chip.take_records(), records);
    assert_eq!(chip.take_records(), []);
}

#[test]
fn records_in_pieces_are_all_records() {
    let n = 200_000;
    let mut chip = with_inputs(n / 7 + 10);
    chip.run(1_000).unwrap(); // records not taken come first
    let mut taken = Vec::new();
    chip.run_with(n - 1_000, |record| taken.push(record)).unwrap();
    let (state, _, records) = plainly(n);
    assert_eq!(chip.state, state);
    assert_eq!(taken, records);
    assert_eq!((chip.written(), chip.output_clocks().len()), (0, 4_096));
}

#[test]
fn steps_are_runs_of_one() {
    let mut chip = with_inputs(1_000);
    for _ in 0..1_000 {
        chip.step().unwrap();
    }
    let (state, _, records) = plainly(1_000);
    assert_eq!((chip.state, chip.leaps()), (state, 1_000));
    assert_eq!(chip.take_records(), records);
}

#[test]
fn a_stop_keeps_what_was_reached() {
    let mut chip = started();
    chip.memory[0x0202] = 2; // undefined
    let mut taken = Vec::new();
    assert_eq!(chip.run_with(100, |record| taken.push(record)), Err(Number::UndefinedOpcode));
    assert_eq!((chip.state.clock, taken), (12, vec![Record { clock: 12, word: 0xFFFF_FF00 }]));
    assert_eq!(chip.step(), Err(Number::UndefinedOpcode));
}

#[test]
fn a_halt_ends_a_run_and_the_next_goes_on() {
    let mut chip = with_inputs(3);
    chip.halt = Some(0x0000);
    for clock in [12, 20, 28] {
        assert_eq!(chip.run(100), Err(Number::HaltedAtWrite));
        assert_eq!((chip.state.clock, chip.written()), (clock, (clock / 8) as usize));
    }
    for _ in 0..7 {
        assert_eq!(chip.step(), Ok(()));
    }
    assert_eq!(chip.step(), Err(Number::HaltedAtWrite)); // the single clock is done too
    assert_eq!((chip.state.clock, chip.read(), chip.written()), (36, 4, 4));
    assert_eq!(chip.run(8), Err(Number::HaltedAtWrite)); // on the last clock
    chip.halt = Some(0x0001);
    assert_eq!(chip.run(8), Ok(()));
    chip.halt = None;
    assert_eq!(chip.run(1_000), Ok(()));
    assert_eq!((chip.state.clock, chip.take_records().len()), (1_052, 131));
}

#[test]
fn space_is_made_for_the_record_of_a_halt() {
    let mut chip = started();
    chip.halt = Some(0x0000);
    chip.set_space(&[], &[]);
    assert_eq!(chip.call_run(100).number, Number::NoFreeRecord);
    assert_eq!(chip.state.clock, 11);
    let mut taken = Vec::new();
    assert_eq!(chip.run_with(100, |record| taken.push(record)), Err(Number::HaltedAtWrite));
    assert_eq!((chip.state.clock, taken), (12, vec![Record { clock: 12, word: 0xFFFF_FF00 }]));
}

#[test]
fn refusals_change_nothing() {
    let mut chip = with_inputs(3);
    chip.state.clock = 5;
    assert_eq!(chip.run(u32::MAX - 4), Err(Number::ClockTooHigh));
    chip.state.clock = 7; // the first input is not above it any more
    assert_eq!(chip.run(10), Err(Number::WrongPinList));
    assert_eq!(chip.step(), Err(Number::WrongPinList));
    chip.set_inputs(&[9, 10], &[8]);
    assert_eq!(chip.run(1), Err(Number::UnequalLists));
    chip.memory.pop();
    assert_eq!(chip.run(0), Err(Number::WrongMemoryLength));
    assert_eq!(chip.load(b";0000010001").map_err(|refused| refused.number), Err(Number::WrongMemoryLength));
    assert_eq!((chip.state.clock, chip.read(), chip.leaps()), (7, 0, 0));
}

#[test]
fn a_call_takes_the_space_as_it_is() {
    let mut chip = started();
    chip.set_space(&[1; 2], &[2; 2]);
    let result = chip.call_run(100);
    assert_eq!((result.number, result.written, result.state.clock), (Number::NoFreeRecord, 2, 27));
    assert_eq!((chip.output_clocks(), chip.output_words()), (&[12, 20][..], &[0xFFFF_FF00, 0xFFFF_FF01][..]));
    assert_eq!(chip.call_step().number, Number::NoFreeRecord);
    chip.set_space(&[1], &[2, 2]);
    assert_eq!(chip.call_step().number, Number::UnequalLists);
    assert_eq!(chip.run(1), Err(Number::UnequalLists));
}

#[test]
fn an_input_must_come_behind_the_last() {
    let mut chip = started();
    assert_eq!(chip.input(0, Pin::PA0, Level::Low), Err(Number::WrongPinList));
    assert_eq!(chip.input(1, Pin::PA0, Level::Low), Err(Number::WrongPinList)); // RES is the last pin of clock 1
    assert_eq!(chip.input(10, Pin::PA1, Level::High), Ok(()));
    assert_eq!(chip.input(10, Pin::PA1, Level::Low), Err(Number::WrongPinList));
    assert_eq!(chip.input(9, Pin::PA2, Level::Low), Err(Number::WrongPinList));
    chip.run(10).unwrap();
    assert_eq!(chip.input(10, Pin::PA2, Level::Low), Err(Number::WrongPinList));
    assert_eq!(chip.input(11, Pin::PA0, Level::Low), Ok(()));
    chip.run(1).unwrap();
    assert_eq!((chip.read(), chip.state.external.ports), (3, 0xFFFF_FFFE));
}
