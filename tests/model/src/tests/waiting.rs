//! Document 02, U6: a store's byte waits for its last clock. Worked out by hand.

use super::*;
use crate::accesses::AccessKind;
use crate::cpu::Start;
use crate::opcodes::{Addressing, Operation};
use crate::state::fresh_transmitter;

const RES_LOW: u8 = 33;
const RES_HIGH: u8 = 64 + 33;

fn waits(address: u16, value: u8) -> Option<Waiting> {
    Some(Waiting { address, value })
}

/// A ready state with A, before a store.
fn with_a(a: u8) -> State {
    State { a, ..ready() }
}

/// The number of event clocks in so many.
fn events(world: &mut World, clocks: u32) -> usize {
    (0..clocks).filter(|_| plain(world, None).unwrap().event).count()
}

/// Whether an operation is "a store or a read-modify-write".
fn stores(operation: Operation, addressing: Addressing) -> bool {
    use Operation::*;
    let modifies = matches!(operation, Asl | Dec | Inc | Lsr | Rol | Ror | Rmb(_) | Smb(_));
    matches!(operation, Sta | Stx | Sty) || modifies && addressing != Addressing::Accumulator
}

#[test]
fn a_byte_waiting_with_wait_0_is_not_well_formed() {
    let state = |wait: u8| State { wait, waiting: waits(0x1234, 0x56), ..ready() };
    assert_eq!([0, 1, 2, 6, 7].map(|wait| well_formed(&state(wait))), [false, true, true, true, false]);
    assert_eq!(refusal(&state(0), 65_536, &[1], &[], 0, 0, 0), 2);
    assert_eq!(refusal(&state(1), 65_536, &[], &[], 0, 0, 1), 0);
    assert_eq!(fresh().waiting, None);
}

#[test]
fn a_store_writes_nothing_before_its_last_clock() {
    // STA 1234h,X with X 1: 5 clocks
    let state = State { a: 0x77, x: 1, ..ready() };
    let mut world = world_of(state, memory(&[(0x200, &[0x9D, 0x34, 0x12])]), &[], 0);
    let before = world.memory.clone();
    for wait in [4, 3, 2, 1] {
        let report = plain(&mut world, None).unwrap();
        assert_eq!((world.state.wait, world.state.waiting), (wait, waits(0x1235, 0x77)));
        assert_eq!((&world.memory, report.event), (&before, wait == 4));
        assert!(report.accesses.list().iter().all(|access| access.kind == AccessKind::Read));
    }
    let report = plain(&mut world, None).unwrap();
    assert_eq!((world.state.wait, world.state.waiting, world.memory[0x1235]), (0, None, 0x77));
    assert_eq!((report.event, report.put, report.start), (true, waits(0x1235, 0x77), None));
    assert_eq!(report.accesses.list().len(), 1);
}

#[test]
fn which_instructions_wait() {
    for opcode in (0..=255).filter(|&opcode| defined(opcode)) {
        let entry = TABLE[usize::from(opcode)];
        let first = one(with_a(0x5A), &[(0x200, &[opcode, 0x50, 0x12])]);
        let waiting = stores(entry.operation, entry.addressing);
        assert_eq!(first.state.waiting.is_some(), waiting, "{opcode:02X}h");
        assert!(!waiting || (2..=6).contains(&first.state.wait), "{opcode:02X}h");
    }
    // the bytes of PHA, PHP, JSR and BRK, of NMI and IRQ are there after the first clock
    for (opcode, pushed) in [(0x48, 1), (0x08, 1), (0x20, 2), (0x00, 3)] {
        let first = one(State { sp: 0x90, ..with_a(0x5A) }, &[(0x200, &[opcode]), (0x8E, &[0xEE; 3])]);
        let changed = (0x8E..=0x90).filter(|&at: &usize| first.memory[at] != 0xEE).count();
        assert_eq!(changed, pushed, "{opcode:02X}h");
    }
    for entry in [State { nmi_due: true, ..ready() }, State { p: 0, ifr: 1, ier: 1, ..ready() }] {
        let first = one(entry, &[]);
        assert_eq!((first.memory[0xFF], first.state.waiting), (0x02, None));
    }
}

#[test]
fn a_load_on_the_last_clock_counts_from_the_next() {
    // STA 1Ah from s = 1: loaded on 3, after A has counted; underflow on 9
    let state = State { latch_a: 5, counter_a: 100, ..with_a(0) };
    let mut world = world_of(state, memory(&[(0x200, &[0x85, 0x1A, 0x4C, 0x02, 0x02])]), &[], 0);
    run(&mut world, 2, None);
    assert_eq!((world.state.counter_a, world.state.latch_a), (98, 5));
    run(&mut world, 1, None);
    assert_eq!(world.state.counter_a, 5);
    run(&mut world, 5, None);
    assert_eq!((world.state.counter_a, world.state.ifr), (0, 0));
    run(&mut world, 1, None);
    assert_eq!((world.state.clock, world.state.counter_a, world.state.ifr), (9, 5, 0x10));
}

#[test]
fn a_load_on_the_clock_of_an_underflow_clears_its_flag() {
    let state = State { latch_a: 5, counter_a: 2, ..with_a(0) };
    let world = whole(state, &[(0x200, &[0x85, 0x1A])]);
    assert_eq!((world.state.counter_a, world.state.ifr), (5, 0));
}

#[test]
fn a_read_modify_write_puts_what_it_made_of_the_byte_it_read() {
    // SMB0 00h from s = 1, PA4 read as 1; A in mode 01 inverts it on 3, and the put on 5 writes it back
    let state = State { ports: [0xFE, 0xFF, 0xFF, 0xFF], mcr: 0x01, counter_a: 2, latch_a: 0xFF, ..ready() };
    let state = State { last: pin_levels(&state), ..state };
    let mut world = world_of(state, memory(&[(0x200, &[0x87, 0x00])]), &[], 8);
    run(&mut world, 4, None);
    assert_eq!((world.state.ports[0], world.state.waiting), (0xEE, waits(0x0000, 0xFF)));
    run(&mut world, 1, None);
    assert_eq!(records(&world), [(3, 0xFFFF_FFEE), (5, 0xFFFF_FFFF)]);
    // INC 17h: the read clears SCSR0 on the first clock, the write SCSR6 on the last
    let state = State { data_received: 0x41, scsr: 0x41, ..ready() };
    let first = one(state.clone(), &[(0x200, &[0xE6, 0x17])]);
    assert_eq!((first.state.scsr, first.state.data_sent), (0x40, 0x00));
    let last = whole(state, &[(0x200, &[0xE6, 0x17])]);
    assert_eq!((last.state.scsr, last.state.data_sent), (0x00, 0x42));
}

#[test]
fn a_register_is_written_by_the_modes_of_the_last_clock() {
    // SCCR 80h, taken on each tick: STA 15h of 00h cuts off a frame that was taken meanwhile
    let state = State { sccr: 0x80, scsr: 0x00, data_sent: 0x41, latch_a: 0, counter_a: 1, ..with_a(0) };
    let mut world = world_of(state, memory(&[(0x200, &[0x85, 0x15])]), &[], 8);
    run(&mut world, 2, None);
    assert_eq!(world.state.transmitter.bits_left, 11);
    run(&mut world, 1, None);
    assert_eq!((&world.state.transmitter, world.state.scsr), (&fresh_transmitter(), 0x40));
    assert_eq!(records(&world), [(2, 0xFFFF_FFBF), (3, 0xFFFF_FFFF)]);
    // 10h: PA0 rises on the last clock, and the zero of that clock clears its flag
    let low = ALL_PINS & !1;
    let state = State { external: low, last: low, ..with_a(0xFE) };
    let mut world = world_of(state, memory(&[(0x200, &[0x85, 0x10])]), &[(3, 0x40)], 0);
    run(&mut world, 3, None);
    assert_eq!((world.state.last & 1, world.state.ifr), (1, 0));
}

#[test]
fn a_cut_leaves_the_byte_to_the_next_call_once() {
    for first in 0..=5 {
        let mut world = world_of(ready(), memory(&[(0x200, &[0xE6, 0x40]), (0x40, &[0x0F])]), &[], 0);
        run(&mut world, first, None);
        assert_eq!(world.memory[0x40], if first == 5 { 0x10 } else { 0x0F });
        assert_eq!(world.state.waiting.is_some(), (1..5).contains(&first));
        run(&mut world, 5 - first, None);
        assert_eq!((world.memory[0x40], world.state.waiting), (0x10, None));
        world.memory[0x40] = 0x0F;
        run(&mut world, 1, None);
        assert_eq!(world.memory[0x40], 0x0F);
    }
}

#[test]
fn interrupts_are_judged_behind_the_put() {
    // IER by STA 12h, a flag pending, I clear: the IRQ starts on 4
    let state = State { p: 0, ifr: 1, ..with_a(1) };
    let mut world = world_of(state, memory(&[(0x200, &[0x85, 0x12])]), &[], 0);
    for clock in 1..=3 {
        assert_eq!(plain(&mut world, None).unwrap().start.is_some(), clock == 1);
    }
    assert_eq!(plain(&mut world, None).unwrap().start, Some(Start::Irq));
    // NMI falls within the store
    let mut world = world_of(with_a(1), memory(&[(0x200, &[0x85, 0x50])]), &[(2, 32)], 0);
    run(&mut world, 3, None);
    assert_eq!((world.state.nmi_due, world.memory[0x50]), (true, 1));
    assert_eq!(plain(&mut world, None).unwrap().start, Some(Start::Nmi));
}

#[test]
fn the_next_instruction_is_fetched_behind_the_put() {
    // STA 0203h writes the opcode behind it
    let mut world = world_of(with_a(0xEA), memory(&[(0x200, &[0x8D, 0x03, 0x02, 0x02])]), &[], 0);
    let outcome = run(&mut world, 5, None);
    assert_eq!((outcome.number, world.state.pc, world.state.wait), (0, 0x204, 1));
}

#[test]
fn reset_low_drops_the_byte() {
    // INC 40h: clocks 1 to 5; RES low on one of 2 to 5 only, then high
    for clock in 2..=5 {
        let inputs = [(clock, RES_LOW), (clock + 1, RES_HIGH)];
        let mut world = world_of(ready(), memory(&[(0x200, &[0xE6, 0x40])]), &inputs, 0);
        run(&mut world, u64::from(clock), Some(0x0040));
        assert_eq!((world.state.waiting, world.state.wait, world.stop), (None, 0, 0));
        assert_eq!(run(&mut world, 4, Some(0x0040)).number, 0);
        assert_eq!(world.memory[0x40], 0);
    }
    // On its first clock the store isn't started; on the clock behind the last the byte is put.
    let mut world = world_of(ready(), memory(&[(0x200, &[0xE6, 0x40])]), &[(6, RES_LOW)], 0);
    run(&mut world, 6, None);
    assert_eq!(world.memory[0x40], 1);
}

#[test]
fn a_dropped_byte_alone_makes_an_event_clock() {
    // held, but the state was lent with a byte waiting
    let state = State { wait: 1, waiting: waits(0, 0), ..fresh() };
    let mut world = world_of(state.clone(), memory(&[]), &[], 0);
    let report = plain(&mut world, None).unwrap();
    assert!(report.event && report.met.reset_changes && report.put.is_none());
    assert_eq!((world.state.waiting, world.state.ports[0]), (None, 0xFF));
    let mut world = world_of(State { wait: 0, waiting: None, ..state }, memory(&[]), &[], 0);
    assert!(!plain(&mut world, None).unwrap().event);
}

#[test]
fn the_last_clock_is_an_event_clock_whatever_the_byte() {
    // STA 40h of 00h over 00h, then NOP: event clocks 1, 3, 4
    let parts: &[(usize, &[u8])] = &[(0x200, &[0x85, 0x40, 0xEA])];
    assert_eq!(events(&mut world_of(ready(), memory(parts), &[], 0), 5), 3);
    let leaps = |n: u64| run(&mut world_of(ready(), memory(parts), &[], 0), n, None).leaps;
    assert_eq!([1, 2, 3, 4, 5].map(leaps), [1, 2, 2, 3, 4]);
    // a byte lent: earlier clocks are none, and without a byte the last one is none
    let lent = State { wait: 4, waiting: waits(0x40, 0), ..ready() };
    let mut world = world_of(lent.clone(), memory(parts), &[], 0);
    assert_eq!([0; 4].map(|_| plain(&mut world, None).unwrap().event), [false, false, false, true]);
    assert_eq!(events(&mut world_of(State { waiting: None, ..lent }, memory(parts), &[], 0), 4), 0);
}

#[test]
fn a_full_list_at_the_put_keeps_the_byte() {
    let mut world = world_of(with_a(0x55), memory(&[(0x200, &[0x85, 0x00])]), &[], 0);
    assert_eq!(run(&mut world, 9, None).number, 7);
    assert_eq!((world.state.clock, world.state.wait, world.state.waiting), (2, 1, waits(0x0000, 0x55)));
    world.output_clocks.push(0);
    world.output_words.push(0);
    assert_eq!(run(&mut world, 1, None).number, 0);
    assert_eq!((world.state.waiting, records(&world)), (None, vec![(3, 0xFFFF_FF55)]));
    // the record is an underflow's and the byte goes to memory: it stays as it was
    let state = State { mcr: 0x01, counter_a: 2, ..with_a(0x55) };
    let mut world = world_of(state, memory(&[(0x200, &[0x85, 0x40])]), &[], 0);
    assert_eq!((run(&mut world, 9, Some(0x0040)).number, world.memory[0x40]), (7, 0));
    assert_eq!(world.state.waiting, waits(0x0040, 0x55));
}

#[test]
fn a_lent_byte_halts_where_it_is_put() {
    let state = State { wait: 3, waiting: waits(0x1234, 0x56), ..ready() };
    let mut world = world_of(state, memory(&[]), &[], 0);
    assert_eq!((run(&mut world, 2, Some(0x1234)).number, world.memory[0x1234]), (0, 0));
    let outcome = run(&mut world, 9, Some(0x1234));
    assert_eq!((outcome.number, outcome.leaps, world.state.clock, world.memory[0x1234]), (12, 1, 3, 0x56));
}
