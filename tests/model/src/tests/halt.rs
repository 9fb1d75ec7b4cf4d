//! Document 02, U4: halts after the clock of a write at a chosen address.

use super::{memory, program, ready, records, released, world_of, EXAMPLE};
use crate::accesses::AccessKind;
use crate::state::FLAG_I;
use crate::*;

/// 01's tape from fresh, RES high on clock 1, with so many free records.
fn example(free: usize) -> World {
    let mut memory = vec![0; 65_536];
    assert_eq!(load_tape(EXAMPLE.as_bytes(), &mut memory), (0, 53));
    released(memory, &[], free)
}

/// The addresses that the next clock writes, in order.
fn written(state: State, parts: &[(usize, &[u8])]) -> Vec<u16> {
    let mut world = world_of(state, memory(parts), &[], 8);
    let report = plain(&mut world, None).unwrap();
    let writes = report.accesses.list().iter().filter(|access| access.kind == AccessKind::Write);
    writes.map(|access| access.address).collect()
}

/// The numbers of the first clock of an instruction or entry and of the rest of it, with this halt address.
fn numbers(state: State, parts: &[(usize, &[u8])], halt: u16) -> (u8, u8) {
    let mut world = world_of(state, memory(parts), &[], 8);
    let first = run(&mut world, 1, Some(halt)).number;
    let rest = u64::from(world.state.wait);
    (first, run(&mut world, rest, Some(halt)).number)
}

#[test]
fn halts_after_the_clock_of_the_write_with_its_record() {
    let mut world = example(100);
    let outcome = run(&mut world, 100, Some(0x0000));
    assert_eq!((outcome.number, world.state.clock, world.state.wait), (12, 12, 0));
    // event clocks 1, 8, 10 and 12
    assert_eq!(outcome.leaps, 4);
    assert_eq!(records(&world), [(12, 0xFFFFFF55)]);
}

#[test]
fn a_halt_on_the_last_clock_and_behind_it() {
    let mut world = example(100);
    assert_eq!(run(&mut world, 12, Some(0x0000)).number, 12);
    for n in [10, 11] {
        let mut world = example(100);
        assert_eq!(run(&mut world, n, Some(0x0000)).number, 0);
        assert_eq!(world.state.waiting, Some(Waiting { address: 0x0000, value: 0x55 }));
        assert_eq!(run(&mut world, 0, Some(0x0000)).number, 0);
        assert_eq!(run(&mut world, 12 - n, Some(0x0000)).number, 12);
    }
}

#[test]
fn none_is_no_address_at_all() {
    let mut world = example(100);
    assert_eq!(run(&mut world, 100, None).number, 0);
    assert_eq!((world.state.clock, world.stop), (100, 0));
    let mut world = example(100);
    assert_eq!(run(&mut world, 100, Some(0x0001)).number, 0);
}

#[test]
fn a_full_list_comes_first_and_a_later_call_halts_there() {
    let mut world = example(0);
    assert_eq!(run(&mut world, 100, Some(0x0000)).number, 7);
    assert_eq!((world.state.clock, world.state.ports[0]), (11, 0xFF));
    world.output_clocks.push(0);
    world.output_words.push(0);
    let outcome = run(&mut world, 100, Some(0x0000));
    assert_eq!((outcome.number, outcome.leaps, world.state.clock), (12, 1, 12));
}

#[test]
fn the_clock_behind_it_is_not_looked_at() {
    // STA 00h, put on clock 3, takes the only record; counter A in mode 01 inverts PA4's latch on clock 4
    let state = State { counter_a: 3, mcr: 0x01, ..ready() };
    let mut world = world_of(state, memory(&[(0x200, &[0x85, 0x00])]), &[], 1);
    assert_eq!(run(&mut world, 5, Some(0x0000)).number, 12);
    assert_eq!(run(&mut world, 5, Some(0x0000)).number, 7);
    // an undefined opcode behind the store
    let mut world = world_of(ready(), memory(&[(0x200, &[0x85, 0x40, 0x02])]), &[], 0);
    assert_eq!((run(&mut world, 5, Some(0x0040)).number, world.state.clock), (12, 3));
    assert_eq!((run(&mut world, 5, Some(0x0040)).number, world.state.clock), (6, 3));
}

#[test]
fn after_a_halt_the_next_call_goes_on() {
    // INC 40h on 8, JMP on 13: the byte put on clock 12 once, then that of clock 20
    let mut world = program(&[0xE6, 0x40, 0x4C, 0x00, 0x02], &[], 0);
    assert_eq!((run(&mut world, 100, Some(0x0040)).number, world.state.clock), (12, 12));
    assert_eq!((run(&mut world, 7, Some(0x0040)).number, world.state.clock), (0, 19));
    assert_eq!((run(&mut world, 7, Some(0x0040)).number, world.state.clock), (12, 20));
    assert_eq!(world.memory[0x40], 2);
}

#[test]
fn plain_clocks_after_a_halt_do_nothing() {
    let mut world = program(&[0xE6, 0x40], &[], 0);
    while plain(&mut world, Some(0x0040)).is_some() {}
    assert_eq!((world.stop, world.state.clock), (12, 12));
    let halted = world.clone();
    assert!(plain(&mut world, Some(0x0040)).is_none());
    assert_eq!(world, halted);
}

#[test]
fn pushes_in_order() {
    // JSR with SP 00h: port A's register, then FFh
    assert_eq!(written(State { sp: 0x00, ..ready() }, &[(0x200, &[0x20, 0x00, 0x03])]), [0x0000, 0x00FF]);
    assert_eq!(written(State { sp: 0x81, ..ready() }, &[(0x200, &[0x00])]), [0x81, 0x80, 0x7F]);
    assert_eq!(written(State { sp: 0x01, nmi_due: true, ..ready() }, &[]), [0x01, 0x00, 0xFF]);
    let interrupted = State { p: 0, ifr: 1, ier: 1, sp: 0x40, ..ready() };
    assert_eq!(written(interrupted, &[]), [0x40, 0x3F, 0x3E]);
    assert_eq!(written(State { sp: 0x90, ..ready() }, &[(0x200, &[0x48])]), [0x90]);
}

#[test]
fn each_push_halts() {
    let state = State { sp: 0x01, ..ready() };
    const NO: (u8, u8) = (0, 0);
    const YES: (u8, u8) = (12, 0);
    let at_each = |state: &State, parts: &[(usize, &[u8])]| {
        [0x02, 0x01, 0x00, 0xFF, 0xFE].map(|at| numbers(state.clone(), parts, at))
    };
    assert_eq!(at_each(&state, &[(0x200, &[0x00])]), [NO, YES, YES, YES, NO]);
    assert_eq!(at_each(&state, &[(0x200, &[0x20, 0x00, 0x03])]), [NO, YES, YES, NO, NO]);
    assert_eq!(at_each(&state, &[(0x200, &[0x08])]), [NO, YES, NO, NO, NO]);
    assert_eq!(at_each(&State { nmi_due: true, ..state.clone() }, &[]), [NO, YES, YES, YES, NO]);
    // the reset entry pushes nothing, pulls only read
    assert_eq!(at_each(&State { reset_due: true, ..state.clone() }, &[]), [NO; 5]);
    assert_eq!(at_each(&state, &[(0x200, &[0x68])]), [NO; 5]);
}

#[test]
fn ignored_registers_and_bytes_equal_to_the_old_count() {
    for register in [0x04, 0x11, 0x13, 0x1B, 0x1F, 0x3F] {
        let state = State { a: 0x5A, ..ready() };
        assert_eq!(numbers(state.clone(), &[(0x200, &[0x85, register])], u16::from(register)), (0, 12));
        assert_eq!(numbers(state, &[(0x200, &[0xA5, register])], u16::from(register)), (0, 0));
    }
    // STA 40h of 00h over 00h, RMB0 40h of 00h; port A's FFh by SMB0
    assert_eq!(numbers(ready(), &[(0x200, &[0x85, 0x40])], 0x0040), (0, 12));
    assert_eq!(numbers(ready(), &[(0x200, &[0x07, 0x40])], 0x0040), (0, 12));
    assert_eq!(numbers(ready(), &[(0x200, &[0x87, 0x00])], 0x0000), (0, 12));
}

#[test]
fn the_whole_address_is_compared() {
    let parts: &[(usize, &[u8])] = &[(0x200, &[0x8D, 0x10, 0x12])];
    assert_eq!([0x1210, 0x0010, 0x1200, 0x1211].map(|at| numbers(ready(), parts, at).1), [12, 0, 0, 0]);
    // STA FFFFh,X with X 1 wraps to 0000h
    let state = State { x: 1, ..ready() };
    assert_eq!(numbers(state, &[(0x200, &[0x9D, 0xFF, 0xFF])], 0x0000), (0, 12));
}

#[test]
fn refusals_come_first() {
    let mut world = example(100);
    world.state.p = FLAG_I | 0x20;
    assert_eq!(run(&mut world, 100, Some(0x0000)).number, 2);
    world.state.p = FLAG_I;
    assert_eq!(run(&mut world, 1 << 32, Some(0x0000)).number, 4);
}
