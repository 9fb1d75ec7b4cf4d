//! Document 02, U8: a fresh chip is held, its counters counting, until RES gets high. Worked out by hand.

use super::*;

/// What a fresh chip without inputs is after n clocks: "stays without a CPU start for any n that fits the clock, its
/// counters still counting".
fn held(n: u32) -> State {
    let count = 0xFFFF - (n % 0x1_0000) as u16;
    let underflow = n > 0 && n % 0x1_0000 == 0;
    State { clock: n, counter_a: count, counter_b: count, ifr: if underflow { 0x30 } else { 0 }, ..fresh() }
}

/// Event clocks are each 65,536th, by the underflows, and the one after it, where RES low clears their flags.
fn is_event(clock: u32) -> bool {
    clock % 0x1_0000 == 0 || clock > 1 && clock % 0x1_0000 == 1
}

fn leaps(n: u32) -> u64 {
    let events = if n == 0 { 0 } else { n / 0x1_0000 + (n - 1) / 0x1_0000 };
    u64::from(events) + u64::from(n > 0 && !is_event(n))
}

#[test]
fn fresh_as_literals() {
    let expected = State {
        a: 0,
        x: 0,
        y: 0,
        sp: 0xFF,
        p: 0x04,
        pc: 0,
        wait: 0,
        waiting: None,
        reset_due: true,
        nmi_due: false,
        ports: [0xFF; 4],
        counter_a: 0xFFFF,
        counter_b: 0xFFFF,
        latch_a: 0xFFFF,
        latch_b: 0xFFFF,
        latch_c: 0xFFFF,
        turn: Turn::C,
        ifr: 0,
        ier: 0,
        mcr: 0,
        sccr: 0,
        scsr: 0x40,
        data_sent: 0,
        data_received: 0,
        transmitter: Transmitter { bits_left: 0, phase: 0, register: 0 },
        receiver: Receiver { sub_interval: 0, half: 0, bits_left: 0, register: 0 },
        external: 0x1_FFFF_FFFF,
        last: 0x1_FFFF_FFFF,
        clock: 0,
    };
    assert_eq!(fresh(), expected);
    assert!(well_formed(&expected));
}

#[test]
fn held_without_inputs() {
    // each clock of the first 200,000; a memory that would do something
    let mut world = world_of(fresh(), memory(&[(0x200, &[0xE6, 0x00, 0x4C, 0x00, 0x02])]), &[], 1);
    let (before, mut events) = (world.clone(), 0);
    for clock in 1..=200_000 {
        let report = plain(&mut world, Some(0x0000)).unwrap();
        events += u64::from(report.event);
        assert!(report.start.is_none() && report.accesses.list().is_empty() && report.event == is_event(clock));
        assert_eq!((&world.state, events + u64::from(!report.event)), (&held(clock), leaps(clock)));
    }
    assert_eq!(World { state: fresh(), ..world }, before);
}

#[test]
fn held_by_runs() {
    for n in [0, 1, 65_535, 65_536, 65_537, 65_538, 131_072, 131_073, 131_074, 200_000] {
        let mut world = world_of(fresh(), memory(&[]), &[], 1);
        let outcome = run(&mut world, u64::from(n), None);
        assert_eq!((outcome.number, outcome.inputs_read, outcome.records_written), (0, 0, 0));
        assert_eq!((outcome.leaps, world.state), (leaps(n), held(n)), "{n} clocks");
    }
    assert_eq!([65_536, 65_538].map(leaps), [1, 3]);
}

#[test]
fn released_on_clock_1_it_goes_as_before() {
    // other pins of clock 1 too, and a later RES low
    let lists: [&[(u32, u8)]; 4] =
        [&[], &[(9, 0x20)], &[(1, 0x00), (1, 0x20), (5, 0x40)], &[(3, 0x21), (20, 0x61), (21, 0x00)]];
    let code = memory(&[(0x200, &[0xE6, 0x00, 0x4C, 0x00, 0x02]), (0xFFFA, &[0x00, 0x02])]);
    for inputs in lists {
        for n in [0, 1, 2, 7, 8, 12, 100] {
            let mut old = world_of(unheld(), code.clone(), inputs, 20);
            let mut new = released(code.clone(), inputs, 20);
            let (one, other) = (run(&mut old, n, Some(0x0000)), run(&mut new, n, Some(0x0000)));
            assert_eq!(Outcome { inputs_read: one.inputs_read + usize::from(n > 0), ..one }, other);
            if n > 0 {
                assert_eq!(old.state, new.state);
            }
            assert_eq!((old.memory, old.output_clocks), (new.memory, new.output_clocks));
            assert_eq!(old.output_words, new.output_words);
        }
    }
}

#[test]
fn a_list_that_sets_res_on_clock_1_needs_no_entry() {
    for inputs in [[(1, 0x00), (1, 0x21)], [(1, 0x00), (1, 0x61)]] {
        let world = released(memory(&[]), &inputs, 0);
        assert_eq!((world.input_clocks.len(), world.input_codes[1]), (2, inputs[1].1));
    }
    let world = released(memory(&[]), &[(1, 0x00), (2, 0x21)], 0);
    assert_eq!((world.input_clocks, world.input_codes), (vec![1, 1, 2], vec![0x00, 0x61, 0x21]));
}

#[test]
fn a_later_release_starts_then() {
    // the reset entry on 50, the first instruction on 57
    let mut world = world_of(fresh(), memory(&[(0x200, &[0xA9, 0x55, 0x85, 0x00])]), &[(50, 0x61)], 1);
    let outcome = run(&mut world, 61, None);
    assert_eq!((records(&world), outcome.leaps), (vec![(61, 0xFFFF_FF55)], 4)); // 50, 57, 59, 61
    assert_eq!(world.state.counter_a, 0xFFFF - 61);
}
