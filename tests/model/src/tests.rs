//! P1 to P8 of 01, and other cases worked out by hand.

mod halt;
mod held;
mod shift;
mod sums;
mod waiting;

use crate::counters::{mode_a, Mode};
use crate::opcodes::{defined, TABLE};
use crate::pins::{driven_word, pin_levels};
use crate::registers::{interrupt_flags, register_value, write_register};
use crate::serial::frame;
use crate::state::{ALL_PINS, FLAG_C, FLAG_D, FLAG_I, FLAG_N, FLAG_V, FLAG_Z};
use crate::*;

const EXAMPLE: &str = ";070200A95585004C040201DE\n;02FFFC000201FF\n;0000030003\n";

/// Memory of zeros with parts put in, and the reset vector at 0200h.
fn memory(parts: &[(usize, &[u8])]) -> Vec<u8> {
    let mut memory = vec![0; 65_536];
    memory[0xFFFC] = 0x00;
    memory[0xFFFD] = 0x02;
    for (address, bytes) in parts {
        memory[*address..*address + bytes.len()].copy_from_slice(bytes);
    }
    memory
}

fn world_of(state: State, memory: Vec<u8>, inputs: &[(u32, u8)], free: usize) -> World {
    World {
        state,
        memory,
        input_clocks: inputs.iter().map(|input| input.0).collect(),
        input_codes: inputs.iter().map(|input| input.1).collect(),
        read: 0,
        output_clocks: vec![0; free],
        output_words: vec![0; free],
        written: 0,
        stop: 0,
    }
}

/// From fresh, RES high on clock 1.
fn released(memory: Vec<u8>, inputs: &[(u32, u8)], free: usize) -> World {
    let mut world = world_of(fresh(), memory, inputs, free);
    world.release();
    world
}

/// The same with a program at 0200h.
fn program(bytes: &[u8], inputs: &[(u32, u8)], free: usize) -> World {
    released(memory(&[(0x200, bytes)]), inputs, free)
}

/// Fresh but for RES, which is high in both its levels.
fn unheld() -> State {
    State { external: ALL_PINS, last: ALL_PINS, ..fresh() }
}

/// A state that runs the instruction at 0200h on its next clock.
fn ready() -> State {
    State { reset_due: false, pc: 0x200, ..unheld() }
}

/// The first clock of one instruction on a ready state.
fn one(state: State, parts: &[(usize, &[u8])]) -> World {
    let mut world = world_of(state, memory(parts), &[], 8);
    assert!(plain(&mut world, None).is_some());
    world
}

/// The whole of one instruction.
fn whole(state: State, parts: &[(usize, &[u8])]) -> World {
    let mut world = one(state, parts);
    while world.state.wait > 0 {
        assert!(plain(&mut world, None).is_some());
    }
    world
}

fn records(world: &World) -> Vec<(u32, u32)> {
    (0..world.written).map(|i| (world.output_clocks[i], world.output_words[i])).collect()
}

#[test]
fn p1_latch_0_underflows_each_clock() {
    let state = State { latch_a: 0, counter_a: 0, latch_b: 0, counter_b: 0, wait: 6, ..ready() };
    let mut world = world_of(state, memory(&[]), &[], 0);
    for _ in 0..6 {
        world.state.ifr = 0;
        assert!(plain(&mut world, None).unwrap().event);
        assert_eq!(world.state.ifr, 0x30);
        assert_eq!((world.state.counter_a, world.state.counter_b), (0, 0));
    }
}

#[test]
fn p2_latch_5_loaded_on_t_underflows_on_t_plus_6() {
    // 8 LDA #5, 10 STA 18h, 13 LDA #0, 15 STA 1Ah, its byte put on t = 17
    let mut world = program(&[0xA9, 5, 0x85, 0x18, 0xA9, 0, 0x85, 0x1A, 0x4C, 8, 2], &[], 0);
    run(&mut world, 17, None);
    assert_eq!((world.state.clock, world.state.counter_a, world.state.latch_a), (17, 5, 5));
    run(&mut world, 5, None);
    assert_eq!((world.state.counter_a, world.state.ifr), (0, 0));
    run(&mut world, 1, None);
    assert_eq!((world.state.clock, world.state.counter_a, world.state.ifr), (23, 5, 0x10));
}

#[test]
fn p3_decimal_sum() {
    let state = State { a: 0x58, p: FLAG_I | FLAG_D | FLAG_C, ..ready() };
    let world = one(state, &[(0x200, &[0x69, 0x46])]);
    assert_eq!(world.state.a, 0x05);
    assert_eq!(world.state.p & FLAG_C, FLAG_C);
}

#[test]
fn p4_binary_overflow() {
    let state = State { a: 0x7F, ..ready() };
    let world = one(state, &[(0x200, &[0x69, 0x01])]);
    assert_eq!(world.state.a, 0x80);
    assert_eq!(world.state.p, FLAG_I | FLAG_V | FLAG_N);
}

#[test]
fn p5_frame_of_176_clocks() {
    let state = State { latch_a: 0, counter_a: 0, sccr: 0x80, scsr: 0x00, data_sent: 0x41, ..ready() };
    let mut world = world_of(state, memory(&[(0x200, &[0x4C, 0x00, 0x02])]), &[], 64);
    run(&mut world, 1, None);
    assert_eq!(world.state.transmitter.bits_left, 11);
    assert_eq!(driven_word(&world.state) & 0x40, 0);
    run(&mut world, 175, None);
    assert_eq!(world.state.transmitter.bits_left, 1);
    run(&mut world, 1, None);
    assert_eq!(world.state.transmitter.bits_left, 0);
    assert_eq!(world.state.scsr, 0xC0);
    // 41h: start low from 1; bit 0 high from 17; bits 1 to 5 low from 33; bit 6 high from 113; bit 7 low from 129;
    // stops from 145
    let clocks: Vec<u32> = records(&world).iter().map(|record| record.0).collect();
    assert_eq!(clocks, [1, 17, 33, 113, 129, 145]);
}

#[test]
fn p6_one_low_sub_interval_makes_no_start() {
    let state = State { latch_a: 0, counter_a: 0, sccr: 0x40, ..ready() };
    // looks on clocks 2, 4, 6, ...: PA7 low on clocks 3 and 4 only
    let inputs = [(3, 0x07), (5, 0x47)];
    let mut world = world_of(state, memory(&[(0x200, &[0x4C, 0x00, 0x02])]), &inputs, 8);
    run(&mut world, 4, None);
    assert_eq!(world.state.receiver.sub_interval, 1);
    run(&mut world, 2, None);
    assert_eq!((world.state.receiver.sub_interval, world.state.receiver.bits_left), (0, 0));
    run(&mut world, 100, None);
    assert_eq!(world.state.receiver.bits_left, 0);
}

#[test]
fn p7_input_on_the_cut_belongs_to_the_first_half() {
    let inputs = [(10, 0x00), (11, 0x40)];
    let mut world = program(&[0x4C, 0x00, 0x02], &inputs, 8);
    let first = run(&mut world, 10, None);
    assert_eq!(first.inputs_read, 2); // with that of RES
    let second = run(&mut world, 10, None);
    assert_eq!(second.inputs_read, 1);
    let mut whole = program(&[0x4C, 0x00, 0x02], &inputs, 8);
    run(&mut whole, 20, None);
    assert_eq!(whole, world);
}

#[test]
fn p8_183_opcodes() {
    assert_eq!((0..=255).filter(|&opcode| defined(opcode)).count(), 183);
    for opcode in 0..=255u8 {
        let length = TABLE[usize::from(opcode)].length;
        assert_eq!(defined(opcode), (2..=7).contains(&length));
    }
}

#[test]
fn example_tape() {
    let mut memory = vec![0; 65_536];
    assert_eq!(load_tape(EXAMPLE.as_bytes(), &mut memory), (0, 53));
    let mut world = released(memory, &[], 100);
    let outcome = run(&mut world, 100, None);
    assert_eq!((outcome.number, outcome.inputs_read), (0, 1));
    assert_eq!(records(&world), [(12, 0xFFFFFF55)]);
    // Event clocks: reset on 1, LDA 8, STA 10, its byte put on 12, JMP on 13, 16, ... 100: 30 times, the first with a
    // level change (PA1, PA3, PA5, PA7 fall).
    assert_eq!(outcome.leaps, 4 + 30);
}

#[test]
fn leaps_count_a_last_clock_without_event() {
    let mut world = program(&[0x4C, 0x00, 0x02], &[], 8);
    assert_eq!(run(&mut world, 0, None).leaps, 0);
    // reset on 1, then clocks 2 to 5 without event
    assert_eq!(run(&mut world, 5, None).leaps, 2);
    // 6, 7 without event, 8 starts
    assert_eq!(run(&mut world, 3, None).leaps, 1);
}

#[test]
fn refusals_in_order() {
    let bad = State { wait: 7, ..fresh() };
    assert_eq!(refusal(&bad, 65_535, &[1], &[], 0, 0, 0), 1);
    assert_eq!(refusal(&bad, 65_536, &[1], &[], 0, 0, 0), 2);
    assert_eq!(refusal(&fresh(), 65_536, &[1], &[], 0, 0, u64::MAX), 3);
    assert_eq!(refusal(&fresh(), 65_536, &[], &[], 1, 2, u64::MAX), 3);
    assert_eq!(refusal(&fresh(), 65_536, &[0], &[0], 0, 0, 1 << 32), 4);
    assert_eq!(refusal(&fresh(), 65_536, &[0], &[0], 0, 0, u64::from(u32::MAX)), 5);
    assert_eq!(refusal(&fresh(), 65_536, &[1], &[0], 0, 0, u64::from(u32::MAX)), 0);
    for (clocks, codes, number) in [
        (vec![1, 1], vec![0, 1], 0),
        (vec![1, 1], vec![1, 1], 5),
        (vec![1, 1], vec![1, 0x41], 5),
        (vec![1, 1], vec![0x41, 2], 0),
        (vec![2, 1], vec![0, 1], 5),
        (vec![1, 2], vec![5, 0], 0),
        (vec![9], vec![33], 0),
        (vec![9], vec![34], 5),
        (vec![9], vec![64 + 33], 0),
        (vec![9], vec![64 + 34], 5),
        (vec![9], vec![128], 5),
    ] {
        assert_eq!(refusal(&fresh(), 65_536, &clocks, &codes, 0, 0, 0), number);
    }
}

#[test]
fn ranges_of_fields() {
    assert!(well_formed(&fresh()));
    assert!(!well_formed(&State { p: 0x20, ..fresh() }));
    assert!(!well_formed(&State { p: 0x10, ..fresh() }));
    assert!(well_formed(&State { wait: 6, ..fresh() }));
    assert!(!well_formed(&State { ifr: 0x40, ..fresh() }));
    assert!(well_formed(&State { transmitter: Transmitter { bits_left: 12, phase: 15, register: 0xFFF }, ..fresh() }));
    assert!(!well_formed(&State { transmitter: Transmitter { bits_left: 13, phase: 0, register: 0 }, ..fresh() }));
    assert!(!well_formed(&State { transmitter: Transmitter { bits_left: 0, phase: 16, register: 0 }, ..fresh() }));
    assert!(!well_formed(&State { transmitter: Transmitter { bits_left: 0, phase: 0, register: 0x1000 }, ..fresh() }));
    let receiver = Receiver { sub_interval: 7, half: 1, bits_left: 11, register: 0x7FF };
    assert!(well_formed(&State { receiver: receiver.clone(), ..fresh() }));
    assert!(!well_formed(&State { receiver: Receiver { sub_interval: 8, ..receiver.clone() }, ..fresh() }));
    assert!(!well_formed(&State { receiver: Receiver { half: 2, ..receiver.clone() }, ..fresh() }));
    assert!(!well_formed(&State { receiver: Receiver { bits_left: 12, ..receiver.clone() }, ..fresh() }));
    assert!(!well_formed(&State { receiver: Receiver { register: 0x800, ..receiver }, ..fresh() }));
    assert!(!well_formed(&State { external: 1 << 34, ..fresh() }));
}

#[test]
fn tape_faults() {
    let load = |tape: &str| load_tape(tape.as_bytes(), &mut vec![0; 65_536]);
    assert_eq!(load_tape(b"", &mut []), (1, 0));
    assert_eq!(load(""), (10, 0));
    assert_eq!(load("abc"), (10, 3));
    assert_eq!(load(";0000010001"), (0, 11));
    assert_eq!(load("xx;0000010001yy;"), (0, 13));
    assert_eq!(load(";0000020002"), (10, 0));
    assert_eq!(load(";0000020001"), (9, 0));
    assert_eq!(load(";000001000"), (8, 0));
    assert_eq!(load(";000001000;"), (8, 0));
    assert_eq!(load(";01FFFF000"), (8, 0));
    assert_eq!(load(";01FFFF0001FF;0000020002"), (0, 24));
    assert_eq!(load(";02FFFF000001FF;0000020002"), (8, 0));
    assert_eq!(load(";0102000a000D;0000020002"), (8, 0));
    assert_eq!(load(";0102000A000C;00"), (9, 0));
    assert_eq!(load(";0102000A000D;00"), (8, 13));
    assert_eq!(load(";0102000A000D"), (10, 13));
    assert_eq!(load(";190200"), (8, 0));
}

#[test]
fn tape_bytes_below_40h_are_dropped() {
    let mut memory = vec![0; 65_536];
    // 02h + 00h + 3Fh + 11h + 22h = 74h
    assert_eq!(load_tape(b";02003F11220074;0000020002", &mut memory), (0, 26));
    assert_eq!((memory[0x3F], memory[0x40]), (0, 0x22));
}

#[test]
fn decimal_table_cases() {
    // 99 + 1: sum A0h before the fix: N from it; A 00, C; binary 9Ah, so Z clear
    let world = one(State { a: 0x99, p: FLAG_D, ..ready() }, &[(0x200, &[0x69, 0x01])]);
    assert_eq!((world.state.a, world.state.p), (0x00, FLAG_D | FLAG_N | FLAG_C));
    // 00 - 01: 99, borrow; binary FFh: N
    let world = one(State { a: 0x00, p: FLAG_D | FLAG_C, ..ready() }, &[(0x200, &[0xE9, 0x01])]);
    assert_eq!((world.state.a, world.state.p), (0x99, FLAG_D | FLAG_N));
    // 46 - 12 = 34, no borrow
    let world = one(State { a: 0x46, p: FLAG_D | FLAG_C, ..ready() }, &[(0x200, &[0xE9, 0x12])]);
    assert_eq!((world.state.a, world.state.p), (0x34, FLAG_D | FLAG_C));
    // 12 - 21 = 91, borrow; binary F1h: N
    let world = one(State { a: 0x12, p: FLAG_D | FLAG_C, ..ready() }, &[(0x200, &[0xE9, 0x21])]);
    assert_eq!((world.state.a, world.state.p), (0x91, FLAG_D | FLAG_N));
    // 80 + 80: sum 100h: N clear, V set, then 160h: A 60, C; binary 00: Z
    let world = one(State { a: 0x80, p: FLAG_D, ..ready() }, &[(0x200, &[0x69, 0x80])]);
    assert_eq!((world.state.a, world.state.p), (0x60, FLAG_D | FLAG_V | FLAG_Z | FLAG_C));
}

#[test]
fn stack_lies_on_page_zero() {
    // JSR 0300h from 0200h: pushes 02h at FFh, 02h at FEh
    let world = one(ready(), &[(0x200, &[0x20, 0x00, 0x03])]);
    assert_eq!((world.state.pc, world.state.sp, world.state.wait), (0x300, 0xFD, 5));
    assert_eq!((world.memory[0xFF], world.memory[0xFE]), (0x02, 0x02));
}

#[test]
fn jsr_reads_its_high_byte_after_the_pushes() {
    // JSR at 00FDh, SP FFh: the push of PC high (00h) lands on its high byte at FFh
    let state = State { pc: 0xFD, ..ready() };
    let world = one(state, &[(0xFD, &[0x20, 0x34, 0x12])]);
    assert_eq!(world.state.pc, 0x0034);
    assert_eq!((world.memory[0xFF], world.memory[0xFE]), (0x00, 0xFF));
}

#[test]
fn break_pushes_and_returns() {
    let world = one(State { p: FLAG_C, ..ready() }, &[(0x200, &[0x00]), (0xFFFE, &[0x00, 0x03])]);
    assert_eq!((world.state.pc, world.state.p, world.state.wait), (0x300, FLAG_C | FLAG_I, 6));
    assert_eq!(world.memory[0xFD..0x100], [0x31, 0x02, 0x02]);
    let state = State { pc: 0x300, wait: 0, ..world.state };
    let world = one(state, &[(0x300, &[0x40]), (0xFD, &[0x31, 0x02, 0x02])]);
    assert_eq!((world.state.pc, world.state.p, world.state.sp), (0x202, FLAG_C, 0xFF));
}

#[test]
fn jump_indirect_takes_its_high_byte_from_the_same_page() {
    // document 02: "pointer 02FFh takes 02FFh and 0200h", here where JMP itself is at 0200h
    let world = one(ready(), &[(0x200, &[0x6C, 0xFF, 0x02]), (0x2FF, &[0x34, 0x12])]);
    assert_eq!((world.state.pc, world.state.wait), (0x6C34, 4));
    let world = one(ready(), &[(0x200, &[0x6C, 0xFF, 0x03]), (0x300, &[0x56]), (0x3FF, &[0x34, 0x12])]);
    assert_eq!((world.state.pc, world.state.wait), (0x5634, 4));
    // FFFFh: FF00h, and not port A
    let world = one(ready(), &[(0x200, &[0x6C, 0xFF, 0xFF]), (0xFFFF, &[0x34]), (0xFF00, &[0x12])]);
    assert_eq!((world.state.pc, world.state.wait), (0x1234, 4));
}

#[test]
fn jump_indirect_at_the_registers() {
    // 00FFh: 0000h, port A by step 1's levels, PA0 being held low outside
    let external = ALL_PINS & !1;
    let state = State { external, last: external, ..ready() };
    let world = one(state, &[(0x200, &[0x6C, 0xFF, 0x00]), (0xFF, &[0x34, 0x12])]);
    assert_eq!((world.state.pc, world.state.wait), (0xFE34, 4));
    // 003Fh: 0040h
    let world = one(ready(), &[(0x200, &[0x6C, 0x3F, 0x00]), (0x40, &[0x12])]);
    assert_eq!((world.state.pc, world.state.wait), (0x12FF, 4));
    // 0017h: 0018h, whose read clears IFR4, as 17h's clears SCSR0
    let state = State { ifr: 0x10, scsr: 0x41, counter_a: 0x0056, data_received: 0x34, ..ready() };
    let world = one(state, &[(0x200, &[0x6C, 0x17, 0x00])]);
    assert_eq!((world.state.pc, world.state.ifr, world.state.scsr), (0x5534, 0x00, 0x40));
}

#[test]
fn jump_indirect_within_a_page_takes_the_pointer_plus_1() {
    for pointer in [0x0300u16, 0x03FE, 0x03FD, 0xFFF0] {
        let [low, high] = pointer.to_le_bytes();
        let world = one(ready(), &[(0x200, &[0x6C, low, high]), (usize::from(pointer), &[0x34, 0x12])]);
        assert_eq!((world.state.pc, world.state.wait), (0x1234, 4));
    }
}

#[test]
fn operands_and_other_pointers_go_past_a_page_end() {
    // JMP indirect at 02FEh: its own high byte is at 0300h
    let state = State { pc: 0x2FE, ..ready() };
    let world = one(state, &[(0x2FE, &[0x6C, 0x10, 0x04]), (0x410, &[0x34, 0x12])]);
    assert_eq!(world.state.pc, 0x1234);
    // JMP absolute at 02FEh, JSR at 02FDh
    let world = one(State { pc: 0x2FE, ..ready() }, &[(0x2FE, &[0x4C, 0x34, 0x12])]);
    assert_eq!(world.state.pc, 0x1234);
    let world = one(State { pc: 0x2FE, ..ready() }, &[(0x2FE, &[0x20, 0x34, 0x12])]);
    assert_eq!(world.state.pc, 0x1234);
}

#[test]
fn branch_lengths() {
    // BCC at 0200h: not taken 2, same page 3, other page 4; BBR 5, 6, 7
    let taken = |p: u8, parts: &[(usize, &[u8])]| one(State { p, ..ready() }, parts).state.wait + 1;
    assert_eq!(taken(FLAG_C, &[(0x200, &[0x90, 0x10])]), 2);
    assert_eq!(taken(0, &[(0x200, &[0x90, 0x10])]), 3);
    assert_eq!(taken(0, &[(0x200, &[0x90, 0xF0])]), 4);
    assert_eq!(taken(0, &[(0x200, &[0x8F, 0x40, 0x10])]), 5);
    assert_eq!(taken(0, &[(0x200, &[0x0F, 0x40, 0x10])]), 6);
    assert_eq!(taken(0, &[(0x200, &[0x0F, 0x40, 0xF0])]), 7);
}

#[test]
fn crossed_pages_add_a_clock_to_reads_only() {
    let length =
        |bytes: &[u8]| one(State { x: 1, y: 1, ..ready() }, &[(0x200, bytes), (0x80, &[0xFF, 0x03])]).state.wait + 1;
    assert_eq!(length(&[0xBD, 0xFE, 0x03]), 4);
    assert_eq!(length(&[0xBD, 0xFF, 0x03]), 5);
    assert_eq!(length(&[0x9D, 0xFF, 0x03]), 5);
    assert_eq!(length(&[0xB1, 0x80]), 6);
    assert_eq!(length(&[0x91, 0x80]), 6);
    assert_eq!(length(&[0xFE, 0xFF, 0x03]), 7);
}

#[test]
fn read_modify_write_sees_the_port_latch() {
    // PB0 held low outside; latch FFh: INC 01h gives 00h, LDA 01h gives FEh
    let external = ALL_PINS & !(1 << 8);
    let state = State { external, last: external, ..ready() };
    let world = whole(state.clone(), &[(0x200, &[0xE6, 0x01])]);
    assert_eq!(world.state.ports[1], 0x00);
    let world = one(state, &[(0x200, &[0xA5, 0x01])]);
    assert_eq!(world.state.a, 0xFE);
}

#[test]
fn interrupt_flag_formulas() {
    let flags = |scsr: u8| interrupt_flags(&State { scsr, ..fresh() });
    assert_eq!(flags(0x40), 0x80);
    assert_eq!(flags(0x60), 0x00);
    assert_eq!(flags(0xE0), 0x80);
    assert_eq!(flags(0x80), 0x00);
    for bit in 0..4 {
        assert_eq!(flags(1 << bit), 0x40);
    }
}

#[test]
fn frames() {
    // 8 bits, no parity: 11 bits
    assert_eq!(frame(0x80, 0x41), (0b110_1000_0010, 11));
    // 5 bits, even parity, 15h has three ones: parity 1, one stop
    assert_eq!(frame(0x8F, 0xF5), (0b1_1_10101_0, 8));
    // 7 bits, odd parity, 03h has two ones: parity 1
    assert_eq!(frame(0x86, 0x03), (0b1_1_0000011_0, 10));
}

#[test]
fn pulse_mode_of_a_starts_high_and_is_held_by_the_serial_channel() {
    let mut state = State { ports: [0, 0, 0, 0], ..fresh() };
    write_register(&mut state, 0x14, 0x01);
    assert_eq!(state.ports[0], 0x10);
    state.ports[0] = 0;
    write_register(&mut state, 0x14, 0x05);
    assert_eq!(state.ports[0], 0);
    write_register(&mut state, 0x15, 0x80);
    assert_eq!(mode_a(&state), Mode::Interval);
    write_register(&mut state, 0x1A, 0);
    assert_eq!(state.ports[0], 0);
    write_register(&mut state, 0x15, 0x50);
    assert_eq!(mode_a(&state), Mode::Pulse);
    assert_eq!(state.ports[0], 0x10);
    write_register(&mut state, 0x1A, 0);
    assert_eq!(state.ports[0], 0);
}

#[test]
fn retrigger_on_the_clock_of_an_underflow() {
    // B at 0 in mode 11 and PA5 rises: reload, no flag
    let low = ALL_PINS & !(1 << 5);
    let state = State { mcr: 0x0C, counter_b: 0, latch_b: 7, wait: 6, external: low, last: low, ..ready() };
    let mut world = world_of(state.clone(), memory(&[]), &[(1, 0x45)], 0);
    plain(&mut world, None);
    assert_eq!((world.state.counter_b, world.state.ifr), (7, 0));
    let mut world = world_of(state, memory(&[]), &[], 0);
    plain(&mut world, None);
    assert_eq!((world.state.counter_b, world.state.ifr), (7, 0x20));
}

#[test]
fn stops_change_nothing_else() {
    // 02h is undefined; on clock 8 after the reset entry
    let mut world = program(&[0x02], &[(8, 0x00)], 0);
    assert_eq!(run(&mut world, 100, None).number, 6);
    assert_eq!((world.state.clock, world.read), (7, 1));
    // an NMI fall on that clock prevents it; its vector leads to 0000h, where port A's FEh is defined (INC abs,X)
    let mut world = program(&[0x02], &[(8, 0x20)], 0);
    assert_eq!(run(&mut world, 8, None).number, 0);
    assert_eq!(world.state.clock, 8);
    // full: the byte of STA 00h, put on clock 12, needs a record
    let mut world = program(&[0xA9, 0x55, 0x85, 0x00, 0x02], &[], 0);
    let before = world.memory.clone();
    assert_eq!(run(&mut world, 100, None).number, 7);
    assert_eq!((world.state.clock, world.state.ports[0]), (11, 0xFF));
    assert_eq!(world.memory, before);
}

#[test]
fn stop_leaves_no_read_effect() {
    // PC at 1Ch: the lower byte of counter B, 02h, is undefined; its flag stays
    let state = State { pc: 0x1C, counter_b: 0x0003, ifr: 0x20, ..ready() };
    let mut world = world_of(state.clone(), memory(&[]), &[], 0);
    assert!(plain(&mut world, None).is_none());
    assert_eq!((world.stop, &world.state), (6, &state));
}

#[test]
fn reset_low_then_high() {
    // RES low on clocks 20 to 22, high on 23: reset entry on 23, first instruction on 30, STA 01h on 32
    let mut world = program(&[0xA9, 0x00, 0x85, 0x01, 0x4C, 0x04, 0x02], &[(20, 0x21), (23, 0x61)], 8);
    run(&mut world, 40, None);
    assert_eq!(records(&world), [(12, 0xFFFF00FF), (20, 0xFFFFFFFF), (34, 0xFFFF00FF)]);
}

#[test]
fn nmi_fall_is_taken_once() {
    // JMP loop at 0200h; NMI low from 9; vector to 0300h: INC 80h, RTI
    let parts: &[(usize, &[u8])] =
        &[(0x200, &[0x4C, 0x00, 0x02]), (0x300, &[0xE6, 0x80, 0x40]), (0xFFFA, &[0x00, 0x03])];
    let mut world = released(memory(parts), &[(9, 0x20)], 0);
    run(&mut world, 200, None);
    assert_eq!(world.memory[0x80], 1);
}

#[test]
fn edges_set_their_flags() {
    let mut world =
        program(&[0x4C, 0x00, 0x02], &[(2, 0), (2, 1), (2, 2), (2, 3), (4, 0x40), (4, 0x41), (4, 0x42), (4, 0x43)], 0);
    run(&mut world, 2, None);
    assert_eq!(world.state.ifr, 0x0C);
    run(&mut world, 2, None);
    assert_eq!(world.state.ifr, 0x0F);
    write_register(&mut world.state, 0x10, 0xF5);
    assert_eq!(world.state.ifr, 0x05);
    assert_eq!(register_value(&world.state, 0x10), 0xFF);
}

/// Prints the table for comparison with 001, A.3.
#[test]
#[ignore]
fn print_table() {
    for opcode in 0..256usize {
        let entry = TABLE[opcode];
        println!("T {opcode:02X} {:?} {:?} {} {}", entry.operation, entry.addressing, entry.length, entry.page_clock);
    }
}
