//! Document 02, U7: page sums, worked out by hand.

use super::*;
use crate::run::MEMORY_LENGTH;
use crate::sums::*;

/// Sums of zeros but for these pages.
fn sums_of(pages: &[(usize, u16)]) -> Vec<u16> {
    let mut sums = vec![0; PAGES];
    for &(page, sum) in pages {
        sums[page] = sum;
    }
    sums
}

#[test]
fn sums_of_pages() {
    let mut memory = vec![0; MEMORY_LENGTH];
    (memory[0x00], memory[0x3F], memory[0xFF], memory[0x100], memory[0xFFFF]) = (1, 2, 4, 8, 16);
    let sums = page_sums(&memory);
    assert_eq!((sums[0], sums[1], sums[0xFF]), (7, 8, 16));
    assert_eq!(page_sums(&vec![0xFF; MEMORY_LENGTH]), [65_280; PAGES]);
    assert!(right(&[65_280; PAGES], &vec![0xFF; MEMORY_LENGTH]));
    assert!(!right(&[65_280; PAGES - 1], &vec![0xFF; MEMORY_LENGTH]));
}

#[test]
fn a_sum_changes_by_what_its_page_changes() {
    // 8 LDA #5, 10 STA 1234h over 10h, put on 13, then STA again, put on 17
    let bytes = [0xA9, 5, 0x8D, 0x34, 0x12, 0x8D, 0x34, 0x12, 0x4C, 8, 2];
    let mut world = program(&bytes, &[], 0);
    world.memory[0x1234] = 0x10;
    let mut sums = sums_of(&[(2, 9)]);
    assert_eq!(run_with_sums(&mut world, &mut sums, 12, None).number, 0);
    assert_eq!(sums, sums_of(&[(2, 9)]));
    assert_eq!(run_with_sums(&mut world, &mut sums, 1, None).number, 0);
    assert_eq!(sums, sums_of(&[(2, 9), (0x12, 65_525)]));
    assert_eq!(run_with_sums(&mut world, &mut sums, 100, None).number, 0);
    assert_eq!(sums, sums_of(&[(2, 9), (0x12, 65_525)]));
}

#[test]
fn pushes_count_together_and_registers_not() {
    // 8 LDX #42h, 10 TXS, 12 BRK: pushes 02h, 05h and P, 34h, at 42h, 41h and 40h, one page
    let mut world = program(&[0xA2, 0x42, 0x9A, 0x00], &[], 8);
    let mut sums = vec![0; PAGES];
    assert_eq!(run_with_sums(&mut world, &mut sums, 12, None).number, 0);
    assert_eq!((world.memory[0x42], world.memory[0x41], world.memory[0x40]), (0x02, 0x05, 0x34));
    assert_eq!(sums, sums_of(&[(0, 0x02 + 0x05 + 0x34)]));
    // from 40h on: the second and the third at the registers 3Fh and 3Eh
    let mut world = program(&[0xA2, 0x40, 0x9A, 0x00], &[], 8);
    let mut sums = vec![0; PAGES];
    assert_eq!(run_with_sums(&mut world, &mut sums, 12, None).number, 0);
    assert_eq!(sums, sums_of(&[(0, 0x02)]));
}

#[test]
fn stops_are_by_the_clocks_done() {
    // 8 INC 1234h, put on 13; 14 STA 00h, put on 16; then 02h
    let bytes = [0xEE, 0x34, 0x12, 0x85, 0x00, 0x02];
    for (free, halt, number, clock) in [(8, None, 6, 16), (0, None, 7, 15), (8, Some(0x1234), 12, 13)] {
        let mut world = program(&bytes, &[], free);
        let mut sums = vec![65_535; PAGES];
        assert_eq!(run_with_sums(&mut world, &mut sums, 100, halt).number, number);
        assert_eq!(world.state.clock, clock);
        assert_eq!(sums[0x12], 0);
        assert_eq!(sums.iter().filter(|&&sum| sum == 65_535).count(), 255);
    }
}

#[test]
fn a_page_list_of_another_length() {
    let mut world = program(&[0x48; 200], &[], 8);
    world.state.wait = 7;
    let before = world.clone();
    for length in [0, 1, 255, 257] {
        let mut sums = vec![3; length];
        let outcome = run_with_sums(&mut world, &mut sums, 1 << 40, None);
        assert_eq!(outcome, Outcome { number: 13, leaps: 0, inputs_read: 0, records_written: 0 });
        assert_eq!(load_tape_with_sums(b";", &mut world.memory, &mut sums), (13, 0));
        assert_eq!(load_tape_with_sums(b";", &mut world.memory[1..], &mut sums), (1, 0));
        assert_eq!(total(&sums), (13, 0));
        assert_eq!((sums, &world), (vec![3; length], &before));
    }
    assert_eq!(run_with_sums(&mut world, &mut [3; 256], 1, None).number, 2);
    world.memory.pop();
    assert_eq!(run_with_sums(&mut world, &mut [3; 255], 1, None).number, 1);
    assert_eq!(
        (refusal_by_length(65_535, 0), refusal_by_length(65_536, 0), refusal_by_length(65_536, 256)),
        (1, 13, 0)
    );
}

#[test]
fn tapes_with_sums() {
    let mut memory = vec![0; MEMORY_LENGTH];
    let mut sums = vec![0; PAGES];
    assert_eq!(load_tape_with_sums(EXAMPLE.as_bytes(), &mut memory, &mut sums), (0, 53));
    assert_eq!(sums, sums_of(&[(2, 469), (0xFF, 2)]));
    assert_eq!((total(&sums), straight_sum(&memory)), ((0, 471), 471));
    // the second record's check sum wrong
    let damaged = EXAMPLE.replace("01FF", "01FE");
    assert_eq!(load_tape_with_sums(damaged.as_bytes(), &mut vec![0; MEMORY_LENGTH], &mut sums), (9, 26));
    assert_eq!(sums, sums_of(&[(2, 469), (0xFF, 2)]));
    // at 3Eh and 3Fh nothing lands
    let mut sums = vec![0; PAGES];
    load_tape_with_sums(b";04003E01020304004C;0000020002", &mut memory, &mut sums);
    assert_eq!(sums, sums_of(&[(0, 7)]));
}

#[test]
fn totals_in_any_order() {
    let memory: Vec<u8> = (0..MEMORY_LENGTH).map(|i| (i * i / 7) as u8 | 0x80).collect();
    let mut sums: Vec<u16> = page_sums(&memory).map(|sum| sum as u16).to_vec();
    assert!(right(&sums, &memory));
    assert_eq!(total(&sums), (0, straight_sum(&memory)));
    sums.rotate_left(100);
    sums.swap(3, 200);
    assert_eq!(total(&sums), (0, straight_sum(&memory)));
    assert_eq!(total(&[65_535; PAGES]), (0, 65_280));
}
