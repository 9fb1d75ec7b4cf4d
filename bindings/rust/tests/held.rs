//! A fresh chip is held until RES gets high (document 02, U8).
use r6501q::{
    code, run, step, CallResult, Chip, Control, CounterA, CounterB, Cpu, Due, Level, Levels, Number, Peripherals,
};
use r6501q::{Pin, Ports, Receiver, SerialData, State, Transmitter, Waiting, MEMORY_LENGTH, PIN_NMI, PIN_RES, RELEASE};

// Every field of fresh.
fn fresh_as_literals() -> State {
    let levels = Levels { ports: 0xFFFF_FFFF, nmi: 1, res: 0 };
    State {
        cpu: Cpu { a: 0, x: 0, y: 0, sp: 0xFF, p: 4, pc: 0, wait: 0, waiting: Waiting::NONE },
        due: Due { reset: 1, nmi: 0 },
        peripherals: Peripherals {
            ports: Ports { a: 0xFF, b: 0xFF, c: 0xFF, d: 0xFF },
            countera: CounterA { count: 0xFFFF, latch: 0xFFFF },
            counterb: CounterB { count: 0xFFFF, latchb: 0xFFFF, latchc: 0xFFFF, turnc: 1 },
            control: Control { ifr: 0, ier: 0, mcr: 0, sccr: 0, scsr: 0x40 },
            serial: SerialData { sent: 0, received: 0 },
            transmitter: Transmitter { left: 0, phase: 0, register: 0 },
            receiver: Receiver { subinterval: 0, half: 0, left: 0, register: 0 },
        },
        external: levels,
        last: levels,
        clock: 0,
    }
}

#[test]
fn fresh_has_res_low_in_both_levels() {
    assert_eq!(State::fresh(), fresh_as_literals());
    assert!(State::fresh().is_well_formed());
}

// What a fresh chip without inputs is after n clocks: as fresh, but the counters count on, and both flags are set on
// each 65,536th clock; RES low clears them on the next.
fn held(n: u32) -> State {
    let mut state = fresh_as_literals();
    let count = 65_535 - (n % 65_536) as u16;
    state.peripherals.countera.count = count;
    state.peripherals.counterb.count = count;
    state.peripherals.control.ifr = if n > 0 && n % 65_536 == 0 { 0x30 } else { 0 };
    state.clock = n;
    state
}

// Event clocks are each 65,536th and the one after it; clock 1 is none.
fn leaps(n: u32) -> u32 {
    let is_event = n % 65_536 == 0 || n > 1 && n % 65_536 == 1;
    match n {
        0 => 0,
        n => n / 65_536 + (n - 1) / 65_536 + u32::from(!is_event),
    }
}

#[test]
fn a_fresh_chip_without_inputs_stays_held() {
    assert_eq!((leaps(65_536), leaps(65_538)), (1, 3));
    let edges = [0, 1, 2, 65_535, 65_536, 65_537, 65_538, 131_072, 131_073, 131_074, u32::MAX - 65_536, u32::MAX];
    for n in edges {
        for halt in [None, Some(0x0000), Some(0x00FF), Some(0x0200)] {
            for fill in [0x00, 0x02, 0x48] {
                let mut memory = vec![fill; MEMORY_LENGTH];
                let (mut clocks, mut words) = ([7; 2], [9; 2]);
                let result = run(State::fresh(), &mut memory, &[], &[], &mut clocks, &mut words, n, halt);
                let expected =
                    CallResult { number: Number::Done, state: held(n), leaps: leaps(n), read: 0, written: 0 };
                assert_eq!(result, expected, "{n} clocks");
                assert_eq!((clocks, words), ([7; 2], [9; 2]));
                assert!(memory.iter().all(|byte| *byte == fill));
            }
        }
    }
    assert_eq!(
        run(held(1), &mut vec![0; MEMORY_LENGTH], &[], &[], &mut [], &mut [], u32::MAX, None).number,
        Number::ClockTooHigh
    );
}

#[test]
fn held_by_single_clocks_and_cuts() {
    let mut memory = vec![0; MEMORY_LENGTH];
    let mut state = State::fresh();
    for n in 1..=140_000 {
        state = step(state, &mut memory, &[], &[], &mut [], &mut [], None).state;
        assert_eq!(state, held(n));
    }
    let mut chip = Chip::new();
    for (n, total) in [(1, 1), (65_534, 65_535), (1, 65_536), (1, 65_537), (1, 65_538), (4_000_000_000, 4_000_065_538)]
    {
        chip.run(n).unwrap();
        assert_eq!(chip.state, held(total));
    }
}

// INC port A, then again; the vector of NMI leads there too.
fn counting() -> Vec<u8> {
    let mut memory = vec![0; MEMORY_LENGTH];
    memory[0x0200..0x0205].copy_from_slice(&[0xE6, 0x00, 0x4C, 0x00, 0x02]);
    (memory[0xFFFB], memory[0xFFFD]) = (2, 2);
    memory
}

#[test]
fn released_on_clock_1_it_goes_as_one_that_never_was_held() {
    let mut old = fresh_as_literals();
    (old.external.res, old.last.res) = (1, 1);
    let lists: [&[(u32, u8)]; 4] = [
        &[],
        &[(9, code(PIN_NMI, false))],
        &[(1, code(0, false)), (1, code(PIN_NMI, false)), (5, code(0, true))],
        &[(3, code(PIN_RES, false)), (20, code(PIN_RES, true)), (21, code(0, false))],
    ];
    for (list, n) in lists.iter().flat_map(|list| [1, 2, 7, 8, 12, 100, 1_000].map(|n| (list, n))) {
        for halt in [None, Some(0x0000), Some(0x00FF)] {
            let (clocks, codes): (Vec<u32>, Vec<u8>) = list.iter().copied().unzip();
            let (mut memory, mut output_clocks, mut output_words) = (counting(), [0; 60], [0; 60]);
            let before = run(old, &mut memory, &clocks, &codes, &mut output_clocks, &mut output_words, n, halt);
            let mut chip = Chip::with(State::fresh(), counting());
            chip.set_inputs(&clocks, &codes);
            chip.set_space(&[0; 60], &[0; 60]);
            chip.halt = halt;
            chip.release();
            let now = chip.call_run(n);
            assert_eq!(now, CallResult { read: before.read + 1, ..before });
            assert_eq!((&chip.memory, chip.output_clocks()), (&memory, &output_clocks[..]));
            assert_eq!(chip.output_words(), output_words);
        }
    }
}

#[test]
fn a_release_stands_behind_its_clocks_other_inputs() {
    let mut chip = Chip::with(State::fresh(), counting());
    chip.input(1, Pin::PA0, Level::Low).unwrap();
    chip.input(1, Pin::NMI, Level::Low).unwrap();
    chip.input(2, Pin::PA0, Level::High).unwrap();
    chip.release();
    chip.release(); // RES is set on that clock now
    chip.run(1).unwrap();
    assert_eq!((chip.read(), chip.state.last.res, chip.state.last.nmi), (3, 1, 0));
    chip.run(99).unwrap();
    assert_eq!(chip.read(), 4);

    let mut chip = Chip::with(State::fresh(), counting());
    chip.input(1, Pin::RES, Level::Low).unwrap();
    chip.input(30, Pin::RES, Level::High).unwrap();
    chip.release();
    chip.run(29).unwrap();
    assert_eq!((chip.read(), chip.state.due.reset), (1, 1));

    let mut chip = Chip::with(State::fresh(), counting());
    chip.state.clock = u32::MAX;
    chip.release(); // there is no next clock
    assert_eq!(chip.run(0), Ok(()));
    assert_eq!(RELEASE, (1, 97));
}
