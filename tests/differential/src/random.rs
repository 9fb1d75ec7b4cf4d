//! Random numbers: the same ones for the same seed and index, on every machine.

use std::cell::Cell;

pub struct Random {
    state: Cell<u64>,
}

impl Random {
    pub fn new(seed: u64, index: u64) -> Self {
        let random = Random { state: Cell::new(seed) };
        random.state.set(random.next() ^ index.wrapping_mul(0xD134_2543_DE82_EF95));
        random.next();
        random
    }

    /// The generator SplitMix64.
    fn next(&self) -> u64 {
        let state = self.state.get().wrapping_add(0x9E37_79B9_7F4A_7C15);
        self.state.set(state);
        let mixed = (state ^ (state >> 30)).wrapping_mul(0xBF58_476D_1CE4_E5B9);
        let mixed = (mixed ^ (mixed >> 27)).wrapping_mul(0x94D0_49BB_1331_11EB);
        mixed ^ (mixed >> 31)
    }

    pub fn long(&self) -> u32 {
        (self.next() >> 32) as u32
    }

    pub fn word(&self) -> u16 {
        (self.next() >> 48) as u16
    }

    pub fn byte(&self) -> u8 {
        (self.next() >> 56) as u8
    }

    /// 0 to `bound` minus 1.
    pub fn below(&self, bound: u32) -> u32 {
        ((u64::from(self.long()) * u64::from(bound)) >> 32) as u32
    }

    /// Both ends included.
    pub fn between(&self, least: u32, most: u32) -> u32 {
        least + self.below(most - least + 1)
    }

    pub fn percent(&self, percent: u32) -> bool {
        self.below(100) < percent
    }

    pub fn flag(&self) -> bool {
        self.next() >> 63 == 1
    }

    pub fn pick<T: Copy>(&self, list: &[T]) -> T {
        list[self.below(list.len() as u32) as usize]
    }
}
