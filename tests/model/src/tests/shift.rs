//! The shift-register mode: document 02, U1, and source document 001, 5. Worked out by hand.

use super::*;
use crate::state::{fresh_receiver, fresh_transmitter};

const PA4: u8 = 0x04;
const PA7: u8 = 0x07;
const HIGH: u8 = 0x40;

const SENDER: u8 = 0xA0;
const RECEIVER: u8 = 0x50;

/// A CPU that does nothing for `wait` clocks and then jumps in place.
fn jumping(state: State, inputs: &[(u32, u8)]) -> World {
    world_of(state, memory(&[(0x200, &[0x4C, 0x00, 0x02])]), inputs, 200)
}

/// Counter A underflows on each clock.
fn ticking(sccr: u8) -> State {
    State { sccr, latch_a: 0, counter_a: 0, ..ready() }
}

/// PA4 low on one clock and high on the next, PA7 set before: the rises are on clocks 2, 4, 6, ...
fn clocked(levels: &[u8]) -> Vec<(u32, u8)> {
    let bit = |(i, level): (usize, &u8)| {
        let clock = 2 * i as u32 + 1;
        [(clock, PA4), (clock, PA7 | level << 6), (clock + 1, PA4 | HIGH)]
    };
    levels.iter().enumerate().flat_map(bit).collect()
}

fn drives(world: &World) -> (u8, u8) {
    let word = driven_word(&world.state);
    ((word >> 4 & 1) as u8, (word >> 6 & 1) as u8)
}

fn sends(bits_left: u8, phase: u8, register: u16) -> Transmitter {
    Transmitter { bits_left, phase, register }
}

fn receives(bits_left: u8, register: u16) -> Receiver {
    Receiver { bits_left, register, ..fresh_receiver() }
}

#[test]
fn sender_shifts_41h_out_at_two_ticks_a_bit() {
    // LDA #41h on 1, STA 17h on 3, its byte put on t = 5
    let parts: &[(usize, &[u8])] = &[(0x200, &[0xA9, 0x41, 0x85, 0x17, 0x4C, 0x04, 0x02])];
    let mut world = world_of(ticking(SENDER), memory(parts), &[], 32);
    run(&mut world, 5, None);
    assert_eq!((drives(&world), world.state.scsr), ((1, 1), 0x00));
    // t + 1: taken, which does not shift; PA4 low, PA6 the lowest bit
    run(&mut world, 1, None);
    assert_eq!((drives(&world), world.state.scsr), ((0, 1), 0x40));
    assert_eq!(world.state.transmitter, sends(8, 0, 0x41));
    run(&mut world, 1, None);
    assert_eq!((drives(&world), &world.state.transmitter), ((1, 1), &sends(8, 1, 0x41)));
    // t + 3
    run(&mut world, 1, None);
    assert_eq!((drives(&world), &world.state.transmitter), ((0, 0), &sends(7, 2, 0x20)));
    // t + 16
    run(&mut world, 13, None);
    assert_eq!((drives(&world), &world.state.transmitter), ((1, 0), &sends(1, 15, 0x00)));
    assert_eq!(world.state.scsr, 0x40);
    // t + 17: under-run, both lines high though phase 0 is even
    run(&mut world, 1, None);
    assert_eq!((drives(&world), world.state.scsr), ((1, 1), 0xC0));
    assert_eq!((world.state.clock, &world.state.transmitter), (22, &sends(0, 0, 0)));
    run(&mut world, 20, None);
    assert_eq!((&world.state.transmitter, world.state.scsr), (&sends(0, 0, 0), 0xC0));
    // 1 on 6, 0 from 8 to 17, 1 on 18, 0 on 20
    let low_pa6 = [8, 10, 12, 14, 16, 20];
    let expected: Vec<(u32, u32)> = (6..=21)
        .map(|clock| (clock, 0xFFFF_FFAF | (clock % 2) << 4 | u32::from(!low_pa6.contains(&(clock / 2 * 2))) << 6))
        .chain([(22, 0xFFFF_FFFF)])
        .collect();
    assert_eq!(records(&world), expected);
}

#[test]
fn sender_takes_the_next_byte_on_the_tick_of_the_last_shift() {
    let waiting = State { transmitter: sends(1, 15, 1), scsr: 0x20, data_sent: 0x80, ..ticking(SENDER) };
    let mut world = jumping(waiting, &[]);
    run(&mut world, 1, None);
    assert_eq!((drives(&world), world.state.scsr), ((0, 0), 0x60));
    assert_eq!(world.state.transmitter, sends(8, 0, 0x80));
    // 15 ticks later its last bit is on the line
    run(&mut world, 15, None);
    assert_eq!(world.state.transmitter, sends(1, 15, 1));
}

#[test]
fn sender_waits_for_ticks() {
    // latch 2: ticks on 3, 6, 9
    let state = State { latch_a: 2, counter_a: 2, scsr: 0, data_sent: 0x02, ..ticking(SENDER) };
    let mut world = jumping(state, &[]);
    run(&mut world, 2, None);
    assert_eq!(world.state.transmitter, fresh_transmitter());
    run(&mut world, 1, None);
    assert_eq!(world.state.transmitter, sends(8, 0, 2));
    run(&mut world, 6, None);
    assert_eq!(world.state.transmitter, sends(7, 2, 1));
    assert_eq!(records(&world), [(3, 0xFFFF_FFAF), (6, 0xFFFF_FFBF), (9, 0xFFFF_FFEF)]);
}

#[test]
fn sender_ignores_width_and_parity() {
    for form in 0..16 {
        let mut world = jumping(State { scsr: 0, data_sent: 0xFF, ..ticking(SENDER | form) }, &[]);
        run(&mut world, 1, None);
        assert_eq!(world.state.transmitter, sends(8, 0, 0xFF));
    }
}

#[test]
fn sender_goes_on_from_any_progress() {
    // phase 6 to 7, then each even phase shifts: 12 bits take 24 ticks but for the half bit that is over
    let mut world = jumping(State { transmitter: sends(12, 6, 0xABC), ..ticking(SENDER) }, &[]);
    assert_eq!(drives(&world), (0, 0));
    run(&mut world, 1, None);
    assert_eq!((drives(&world), &world.state.transmitter), ((1, 0), &sends(12, 7, 0xABC)));
    run(&mut world, 1, None);
    assert_eq!((drives(&world), &world.state.transmitter), ((0, 0), &sends(11, 8, 0x55E)));
    run(&mut world, 21, None);
    assert_eq!((world.state.transmitter.bits_left, world.state.scsr), (1, 0x40));
    run(&mut world, 1, None);
    assert_eq!((&world.state.transmitter, world.state.scsr), (&sends(0, 14, 0), 0xC0));
}

#[test]
fn pa4_is_the_clock_of_a_sender_and_its_latch_otherwise() {
    let state = State { ports: [0; 4], ..ticking(SENDER) };
    let drive =
        |sccr: u8, transmitter: Transmitter| driven_word(&State { sccr, transmitter, ..state.clone() }) as u8 & 0x50;
    assert_eq!(drive(0xA0, sends(0, 0, 0)), 0x50);
    assert_eq!(drive(0xA0, sends(0, 3, 0)), 0x50);
    assert_eq!(drive(0xA0, sends(1, 4, 1)), 0x40);
    assert_eq!(drive(0xA0, sends(1, 5, 0)), 0x10);
    assert_eq!(drive(0xF0, sends(1, 5, 0)), 0x10);
    assert_eq!(drive(0x20, sends(1, 5, 1)), 0x00);
    assert_eq!(drive(0x80, sends(1, 5, 1)), 0x40);
    assert_eq!(drive(0x50, sends(1, 5, 1)), 0x00);
    // A read gives the level, which is high; a read-modify-write instruction sees the latch: INC 00h gives 01h.
    let sender = State { last: pin_levels(&state), ..state };
    assert_eq!(one(sender.clone(), &[(0x200, &[0xA5, 0x00])]).state.a, 0x50);
    assert_eq!(whole(sender, &[(0x200, &[0xE6, 0x00])]).state.ports[0], 0x01);
}

#[test]
fn receiver_shifts_41h_in_at_eight_rises() {
    let state = State { sccr: RECEIVER, wait: 6, ..ready() };
    let mut world = jumping(state, &clocked(&[1, 0, 0, 0, 0, 0, 1, 0]));
    run(&mut world, 1, None);
    assert_eq!(world.state.receiver, fresh_receiver());
    // the first rise shifts
    run(&mut world, 1, None);
    assert_eq!(world.state.receiver, receives(7, 0x400));
    run(&mut world, 13, None);
    assert_eq!((&world.state.receiver, world.state.scsr), (&receives(1, 0x410), 0x40));
    run(&mut world, 1, None);
    assert_eq!(world.state.receiver, receives(0, 0x208));
    assert_eq!((world.state.data_received, world.state.scsr), (0x41, 0x41));
}

#[test]
fn receiver_over_a_full_data_register_keeps_the_byte() {
    // SCSR2 and SCSR3 stay as they are
    let state = State { sccr: RECEIVER, scsr: 0x4D, data_received: 0x11, wait: 6, ..ready() };
    let mut world = jumping(state, &clocked(&[1; 16]));
    run(&mut world, 16, None);
    assert_eq!((world.state.data_received, world.state.scsr), (0x11, 0x4F));
    world.state.scsr = 0x4C;
    run(&mut world, 16, None);
    assert_eq!((world.state.data_received, world.state.scsr), (0xFF, 0x4D));
}

#[test]
fn receiver_goes_on_from_any_progress() {
    // 11 bits left: the byte is the last eight; sub-interval and half stay
    let receiver = Receiver { sub_interval: 5, half: 1, bits_left: 11, register: 0x7FF };
    let mut world = jumping(State { receiver, ..ticking(RECEIVER) }, &clocked(&[1, 1, 1, 0, 1, 0, 0, 0, 0, 0, 1]));
    run(&mut world, 21, None);
    assert_eq!((world.state.receiver.bits_left, world.state.scsr), (1, 0x40));
    run(&mut world, 1, None);
    let expected = Receiver { sub_interval: 5, half: 1, bits_left: 0, register: 0x417 };
    assert_eq!((&world.state.receiver, world.state.data_received, world.state.scsr), (&expected, 0x82, 0x41));
}

#[test]
fn receiver_takes_no_notice_of_ticks() {
    let mut world = jumping(ticking(RECEIVER), &[(3, PA7)]);
    run(&mut world, 300, None);
    assert_eq!((&world.state.receiver, world.state.scsr), (&fresh_receiver(), 0x40));
}

#[test]
fn receiver_beside_a_sender_is_asynchronous() {
    // SCCR4 set too: PA7 low from clock 1, looks on even clocks, a start on 8; the rises of PA4 shift nothing
    for sccr in [0xE0, 0xF0] {
        let state = State { scsr: 0, ..ticking(sccr) };
        let mut world = jumping(state, &[(1, PA7)]);
        run(&mut world, 8, None);
        assert_eq!(world.state.receiver, receives(9, 0));
        assert_eq!(world.state.transmitter.bits_left, 5);
    }
}

#[test]
fn one_rise_is_counted_and_shifts() {
    // A counts the rises on 2, 4 and 6: to 0, an underflow, then from 9
    let state = State { sccr: RECEIVER, mcr: 0x02, counter_a: 1, latch_a: 9, wait: 6, ..ready() };
    let mut world = jumping(state, &clocked(&[1, 1, 1]));
    run(&mut world, 6, None);
    assert_eq!((world.state.counter_a, world.state.ifr), (8, 0x10));
    assert_eq!(world.state.receiver, receives(5, 0x700));
}

#[test]
fn pulse_mode_clocks_the_receiver() {
    // latch 0: PA4's latch is inverted on each clock, 0 on 1, 1 on 2; the level rises a clock later, on 3, 5, ..
    let mut world = jumping(State { mcr: 0x01, wait: 6, ..ticking(RECEIVER) }, &[]);
    assert_eq!(mode_a(&world.state), Mode::Pulse);
    run(&mut world, 2, None);
    assert_eq!((world.state.ports[0], &world.state.receiver), (0xFF, &fresh_receiver()));
    run(&mut world, 1, None);
    assert_eq!(world.state.receiver, receives(7, 0x400));
    run(&mut world, 14, None);
    assert_eq!((&world.state.receiver, world.state.data_received), (&receives(0, 0x7F8), 0xFF));
}

#[test]
fn a_rise_made_by_a_write_of_sccr_shifts() {
    // A byte is being sent, PA4 low: 50h to SCCR, put on 3, gives PA4 back to its latch; the rise is on 4.
    let state = State { a: 0x50, transmitter: sends(8, 0, 0), external: ALL_PINS & !0x80, ..ready() };
    let state = State { sccr: SENDER, ..state };
    let state = State { last: pin_levels(&state), ..state };
    let mut world = world_of(state, memory(&[(0x200, &[0x85, 0x15])]), &[], 8);
    run(&mut world, 2, None);
    assert_eq!((drives(&world), &world.state.transmitter), ((0, 0), &sends(8, 0, 0)));
    run(&mut world, 1, None);
    assert_eq!((drives(&world), &world.state.transmitter), ((1, 1), &fresh_transmitter()));
    assert_eq!(world.state.receiver, fresh_receiver());
    run(&mut world, 1, None);
    assert_eq!(world.state.receiver, receives(7, 0));
}

#[test]
fn writes_of_sccr_and_progress() {
    let transmitter = sends(5, 9, 0x155);
    let receiver = Receiver { sub_interval: 3, half: 1, bits_left: 4, register: 0x2AA };
    let kept = |before: u8, after: u8| {
        let mut state = State { sccr: before, transmitter: transmitter.clone(), receiver: receiver.clone(), ..ready() };
        write_register(&mut state, 0x15, after);
        assert!(state.transmitter == transmitter || state.transmitter == fresh_transmitter());
        assert!(state.receiver == receiver || state.receiver == fresh_receiver());
        (state.transmitter == transmitter, state.receiver == receiver)
    };
    // on and asynchronous before and after, in any form
    assert_eq!(kept(0xC0, 0xCF), (true, true));
    // off, but asynchronous, before
    assert_eq!(kept(0x00, 0xC0), (true, true));
    // off, or shifting, after
    assert_eq!(kept(0xC0, 0x00), (false, false));
    assert_eq!(kept(0xC0, 0x80), (true, false));
    assert_eq!(kept(0xC0, 0x40), (false, true));
    assert_eq!(kept(0xC0, 0xD0), (true, false));
    assert_eq!(kept(0xC0, 0xE0), (false, true));
    assert_eq!(kept(0xA0, 0xA0), (false, false));
    assert_eq!(kept(0x50, 0x50), (false, false));
    // shifting before, asynchronous after
    assert_eq!(kept(0xE0, 0xC0), (false, true));
    assert_eq!(kept(0xD0, 0xC0), (true, false));
    assert_eq!(kept(0x20, 0x80), (false, false));
    assert_eq!(kept(0x10, 0x40), (false, false));
    // SCCR5 beside SCCR4 makes the receiver asynchronous
    assert_eq!(kept(0xD0, 0xF0), (false, false));
    assert_eq!(kept(0xF0, 0xE0), (false, true));
    assert_eq!(kept(0xF0, 0xD0), (false, false));
}

#[test]
fn reset_low_ends_bytes_and_shifts_nothing() {
    // PA4 rises on the clock on which RES falls
    let low = ALL_PINS & !(1 << PA4);
    let state = State { receiver: receives(3, 0x7FF), external: low, last: low, ..ticking(RECEIVER) };
    let mut world = jumping(state, &[(1, PA4 | HIGH), (1, 0x21)]);
    run(&mut world, 1, None);
    assert_eq!((&world.state.receiver, world.state.sccr), (&fresh_receiver(), 0));
    // A byte is being sent, PA4 low and PA6 low: both are high by the fresh latches.
    let state = State { transmitter: sends(8, 0, 0), ..ticking(SENDER) };
    let mut world = jumping(state, &[(1, 0x21)]);
    run(&mut world, 1, None);
    assert_eq!((&world.state.transmitter, records(&world)), (&fresh_transmitter(), vec![(1, 0xFFFF_FFFF)]));
}

#[test]
fn who_holds_counter_a() {
    let mode = |sccr: u8| mode_a(&State { sccr, mcr: 0x02, ..fresh() });
    assert_eq!(
        (mode(0xA0), mode(0x80), mode(0x40), mode(0x60)),
        (Mode::Interval, Mode::Interval, Mode::Interval, Mode::Interval)
    );
    assert_eq!((mode(0x50), mode(0x20), mode(0x10)), (Mode::Event, Mode::Event, Mode::Event));
    assert_eq!((mode(0xD0), mode(0x70)), (Mode::Interval, Mode::Interval));
}
