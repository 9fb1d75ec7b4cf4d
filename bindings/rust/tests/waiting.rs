//! A store's byte is put on its last clock (document 02, U6), whoever makes the calls.
use r6501q::{Chip, Level, Number, Pin, State, Waiting, MEMORY_LENGTH};

// INC 40h on clocks 8 to 12, then a jump in place. Released.
fn counting_once() -> Chip {
    let mut chip = Chip::with(State::fresh(), vec![0; MEMORY_LENGTH]);
    chip.memory[0x0200..0x0205].copy_from_slice(&[0xE6, 0x40, 0x4C, 0x02, 0x02]);
    chip.memory[0xFFFD] = 2;
    chip.memory[0x40] = 0x0F;
    chip.release();
    chip
}

#[test]
fn a_call_that_ends_within_a_store_leaves_its_byte_to_the_next() {
    for first in 7..=12 {
        let mut chip = counting_once();
        chip.run(first).unwrap();
        let (waits, put) = ((8..12).contains(&first), first == 12);
        assert_eq!(chip.state.cpu.waiting, if waits { Waiting::byte(0x0040, 0x10) } else { Waiting::NONE });
        assert_eq!(chip.memory[0x40], if put { 0x10 } else { 0x0F });
        chip.run(12 - first).unwrap();
        assert_eq!((chip.memory[0x40], chip.state.cpu.waiting), (0x10, Waiting::NONE));
        chip.memory[0x40] = 0;
        chip.run(10).unwrap();
        assert_eq!(chip.memory[0x40], 0); // it is put once
    }
}

#[test]
fn the_last_clock_is_a_leap_of_its_own() {
    // reset 1, INC 8, its last clock 12, jumps 13, 16, 19
    let leaps = [(8, 2), (11, 3), (12, 3), (13, 4), (16, 5), (19, 6), (20, 7)];
    for (clocks, expected) in leaps {
        let mut chip = counting_once();
        chip.run(clocks).unwrap();
        assert_eq!(chip.leaps(), expected, "{clocks} clocks");
    }
}

#[test]
fn reset_low_drops_the_byte() {
    for clock in 9..=12 {
        let mut chip = counting_once();
        chip.halt = Some(0x0040);
        chip.input(clock, Pin::RES, Level::Low).unwrap();
        chip.run(100).unwrap();
        assert_eq!((chip.memory[0x40], chip.state.cpu.waiting), (0x0F, Waiting::NONE), "RES low on {clock}");
    }
    let mut chip = counting_once();
    chip.input(13, Pin::RES, Level::Low).unwrap();
    chip.run(100).unwrap();
    assert_eq!(chip.memory[0x40], 0x10);
}

#[test]
fn a_lent_byte_is_put_and_halts_there() {
    let mut chip = Chip::with(State::fresh(), vec![0; MEMORY_LENGTH]);
    (chip.state.external.res, chip.state.last.res) = (1, 1);
    chip.state.cpu.wait = 3;
    chip.state.cpu.waiting = Waiting::byte(0x1234, 0x56);
    chip.halt = Some(0x1234);
    assert_eq!(chip.run(2), Ok(()));
    assert_eq!((chip.memory[0x1234], chip.state.cpu.waiting), (0, Waiting::byte(0x1234, 0x56)));
    assert_eq!(chip.run(2), Err(Number::HaltedAtWrite));
    assert_eq!((chip.state.clock, chip.memory[0x1234], chip.state.cpu.waiting), (3, 0x56, Waiting::NONE));
}

#[test]
fn an_undefined_opcode_behind_a_halting_store_waits_for_the_next_call() {
    let mut chip = counting_once();
    chip.memory[0x0202] = 2;
    chip.halt = Some(0x0040);
    assert_eq!((chip.run(100), chip.state.clock), (Err(Number::HaltedAtWrite), 12));
    assert_eq!((chip.run(100), chip.state.clock), (Err(Number::UndefinedOpcode), 12));
}
