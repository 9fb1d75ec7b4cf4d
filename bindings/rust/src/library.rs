//! The library's functions, each in a thin wrapper. All unsafe code of the crate is here.
//!
//! Why the wrappers are safe: a slice's pointer is aligned and its length true, an empty slice's pointer is not used by
//! the library, what is lent mutably overlaps nothing else, nobody else writes what is lent while a call goes on, the
//! structs have the library's layout (asserted beside them), and the library is proved to come back from every input
//! and to touch nothing outside what it is lent.
#![allow(unsafe_code)]
use crate::state::{layout, State};

/// What a run or a step hands back, as the library lays it out.
#[repr(C)]
pub(crate) struct HostCallResult {
    pub number: u8,
    pub state: State,
    pub leaps: u32,
    pub read: usize,
    pub written: usize,
}

/// What a load hands back, as the library lays it out.
#[repr(C)]
pub(crate) struct HostLoadResult {
    pub number: u8,
    pub place: usize,
}

/// What the latch call hands back, as the library lays it out.
#[repr(C)]
pub(crate) struct HostLatchResult {
    pub number: u8,
    pub found: u8,
    pub value: u16,
}

/// What the total of page sums hands back, as the library lays it out.
#[repr(C)]
pub(crate) struct HostTotalResult {
    pub number: u8,
    pub total: u16,
}

layout!(HostCallResult, 96, number at 0, state at 4, leaps at 76, read at 80, written at 88);
layout!(HostLoadResult, 16, number at 0, place at 8);
layout!(HostLatchResult, 4, number at 0, found at 1, value at 2);
layout!(HostTotalResult, 4, number at 0, total at 2);

extern "C" {
    fn r6501q_fresh() -> State;
    fn r6501q_well_formed(state: State) -> u8;
    fn r6501q_step(
        state: State,
        memory: *mut u8,
        memory_length: usize,
        input_clocks: *const u32,
        input_clocks_length: usize,
        input_codes: *const u8,
        input_codes_length: usize,
        output_clocks: *mut u32,
        output_clocks_length: usize,
        output_words: *mut u32,
        output_words_length: usize,
        halt: u32,
    ) -> HostCallResult;
    fn r6501q_run(
        state: State,
        memory: *mut u8,
        memory_length: usize,
        input_clocks: *const u32,
        input_clocks_length: usize,
        input_codes: *const u8,
        input_codes_length: usize,
        output_clocks: *mut u32,
        output_clocks_length: usize,
        output_words: *mut u32,
        output_words_length: usize,
        n: u32,
        halt: u32,
    ) -> HostCallResult;
    fn r6501q_load(tape: *const u8, tape_length: usize, memory: *mut u8, memory_length: usize) -> HostLoadResult;
    fn r6501q_latch(clock_rate: u32, bit_rate: u32, tolerance: u32) -> HostLatchResult;
    fn r6501q_step_with_sums(
        state: State,
        memory: *mut u8,
        memory_length: usize,
        sums: *mut u16,
        sums_length: usize,
        input_clocks: *const u32,
        input_clocks_length: usize,
        input_codes: *const u8,
        input_codes_length: usize,
        output_clocks: *mut u32,
        output_clocks_length: usize,
        output_words: *mut u32,
        output_words_length: usize,
        halt: u32,
    ) -> HostCallResult;
    fn r6501q_run_with_sums(
        state: State,
        memory: *mut u8,
        memory_length: usize,
        sums: *mut u16,
        sums_length: usize,
        input_clocks: *const u32,
        input_clocks_length: usize,
        input_codes: *const u8,
        input_codes_length: usize,
        output_clocks: *mut u32,
        output_clocks_length: usize,
        output_words: *mut u32,
        output_words_length: usize,
        n: u32,
        halt: u32,
    ) -> HostCallResult;
    fn r6501q_load_with_sums(
        tape: *const u8,
        tape_length: usize,
        memory: *mut u8,
        memory_length: usize,
        sums: *mut u16,
        sums_length: usize,
    ) -> HostLoadResult;
    fn r6501q_total(sums: *const u16, sums_length: usize) -> HostTotalResult;
}

#[inline]
pub(crate) fn fresh() -> State {
    // SAFETY: nothing is lent; the layout of State is asserted.
    unsafe { r6501q_fresh() }
}

#[inline]
pub(crate) fn well_formed(state: State) -> u8 {
    // SAFETY: nothing is lent; the layout of State is asserted.
    unsafe { r6501q_well_formed(state) }
}

#[inline]
pub(crate) fn step(
    state: State,
    memory: &mut [u8],
    input_clocks: &[u32],
    input_codes: &[u8],
    output_clocks: &mut [u32],
    output_words: &mut [u32],
    halt: u32,
) -> HostCallResult {
    // SAFETY: see the module's text.
    unsafe {
        r6501q_step(
            state,
            memory.as_mut_ptr(),
            memory.len(),
            input_clocks.as_ptr(),
            input_clocks.len(),
            input_codes.as_ptr(),
            input_codes.len(),
            output_clocks.as_mut_ptr(),
            output_clocks.len(),
            output_words.as_mut_ptr(),
            output_words.len(),
            halt,
        )
    }
}

#[inline]
pub(crate) fn run(
    state: State,
    memory: &mut [u8],
    input_clocks: &[u32],
    input_codes: &[u8],
    output_clocks: &mut [u32],
    output_words: &mut [u32],
    n: u32,
    halt: u32,
) -> HostCallResult {
    // SAFETY: see the module's text.
    unsafe {
        r6501q_run(
            state,
            memory.as_mut_ptr(),
            memory.len(),
            input_clocks.as_ptr(),
            input_clocks.len(),
            input_codes.as_ptr(),
            input_codes.len(),
            output_clocks.as_mut_ptr(),
            output_clocks.len(),
            output_words.as_mut_ptr(),
            output_words.len(),
            n,
            halt,
        )
    }
}

#[inline]
pub(crate) fn load(tape: &[u8], memory: &mut [u8]) -> HostLoadResult {
    // SAFETY: see the module's text.
    unsafe { r6501q_load(tape.as_ptr(), tape.len(), memory.as_mut_ptr(), memory.len()) }
}

#[inline]
pub(crate) fn latch(clock_rate: u32, bit_rate: u32, tolerance: u32) -> HostLatchResult {
    // SAFETY: nothing is lent; the layout of HostLatchResult is asserted.
    unsafe { r6501q_latch(clock_rate, bit_rate, tolerance) }
}

#[inline]
pub(crate) fn step_with_sums(
    state: State,
    memory: &mut [u8],
    sums: &mut [u16],
    input_clocks: &[u32],
    input_codes: &[u8],
    output_clocks: &mut [u32],
    output_words: &mut [u32],
    halt: u32,
) -> HostCallResult {
    // SAFETY: see the module's text.
    unsafe {
        r6501q_step_with_sums(
            state,
            memory.as_mut_ptr(),
            memory.len(),
            sums.as_mut_ptr(),
            sums.len(),
            input_clocks.as_ptr(),
            input_clocks.len(),
            input_codes.as_ptr(),
            input_codes.len(),
            output_clocks.as_mut_ptr(),
            output_clocks.len(),
            output_words.as_mut_ptr(),
            output_words.len(),
            halt,
        )
    }
}

#[inline]
pub(crate) fn run_with_sums(
    state: State,
    memory: &mut [u8],
    sums: &mut [u16],
    input_clocks: &[u32],
    input_codes: &[u8],
    output_clocks: &mut [u32],
    output_words: &mut [u32],
    n: u32,
    halt: u32,
) -> HostCallResult {
    // SAFETY: see the module's text.
    unsafe {
        r6501q_run_with_sums(
            state,
            memory.as_mut_ptr(),
            memory.len(),
            sums.as_mut_ptr(),
            sums.len(),
            input_clocks.as_ptr(),
            input_clocks.len(),
            input_codes.as_ptr(),
            input_codes.len(),
            output_clocks.as_mut_ptr(),
            output_clocks.len(),
            output_words.as_mut_ptr(),
            output_words.len(),
            n,
            halt,
        )
    }
}

#[inline]
pub(crate) fn load_with_sums(tape: &[u8], memory: &mut [u8], sums: &mut [u16]) -> HostLoadResult {
    // SAFETY: see the module's text.
    unsafe {
        r6501q_load_with_sums(
            tape.as_ptr(),
            tape.len(),
            memory.as_mut_ptr(),
            memory.len(),
            sums.as_mut_ptr(),
            sums.len(),
        )
    }
}

#[inline]
pub(crate) fn total(sums: &[u16]) -> HostTotalResult {
    // SAFETY: see the module's text.
    unsafe { r6501q_total(sums.as_ptr(), sums.len()) }
}
