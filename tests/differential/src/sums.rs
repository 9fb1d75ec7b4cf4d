//! Page sums (document 02, U7): which calls of a scenario are lent them and how many, and totals of any lists.

use crate::random::Random;
use plain_clock::sums::{page_sums, right, straight_sum, total, PAGES};

/// Entries that a scenario has for its calls: 256 sums, and some behind them, which lists that are too long have too.
const ENTRIES: usize = 300;

/// The page list of a scenario: each call with sums is lent some of its entries, and finds them as the last left them.
pub struct PageList {
    pub entries: Vec<u16>,
    /// In how many of a hundred calls it is lent.
    often: u32,
    salt: u32,
}

impl PageList {
    /// Right sums of a memory, or wrong ones.
    pub fn new(random: &Random, memory: &[u8]) -> Self {
        let mut entries = vec![0; ENTRIES];
        fill(random, &mut entries, memory);
        PageList { entries, often: random.pick(&[100, 100, 70, 40]), salt: random.long() }
    }

    /// How many entries a call is lent, from the first on; none where it lacks sums.
    pub fn lent(&self, list: usize, call: usize) -> Option<usize> {
        let random = &Random::new(u64::from(self.salt), (1_000 * list + call) as u64);
        random.percent(self.often).then(|| lent_length(random))
    }
}

/// Mostly 256.
pub fn lent_length(random: &Random) -> usize {
    if random.percent(90) {
        PAGES
    } else {
        random.pick(&[0, 0, 255, 255, 257, 257, 1, ENTRIES, random.below(ENTRIES as u32) as usize])
    }
}

/// Right sums in the first 256 entries, right ones but for one page, or any; entries behind them are of any content.
pub fn fill(random: &Random, entries: &mut [u16], memory: &[u8]) {
    let kind = random.below(10);
    for entry in entries.iter_mut() {
        *entry = match kind {
            0 => 0,
            1 => u16::MAX,
            // near both ends of the range, so that small changes go over them
            2..=3 => random.pick(&[0, 1, 2, 0x40, 0xFFFF, 0xFFFE, 0xFFC0, 0x8000]),
            _ => random.word(),
        };
    }
    if kind >= 6 {
        put_right(entries, memory);
    }
    if kind == 9 {
        let page = random.below(PAGES as u32) as usize;
        entries[page] = entries[page].wrapping_add(random.pick(&[1, 0xFFFF, 0x100, random.word()]));
    }
}

/// The sums of the memory's pages into the first 256 entries.
pub fn put_right(entries: &mut [u16], memory: &[u8]) {
    for (entry, sum) in entries.iter_mut().zip(page_sums(memory)) {
        *entry = sum as u16;
    }
}

/// Where all sums are right, the library's total of them, in any order of the pages, against the straight sum of all
/// bytes. Gives whether they are right, or the text of a difference.
pub fn check_straight_sum(random: &Random, sums: &[u16], memory: &[u8]) -> Result<bool, String> {
    if !right(sums, memory) {
        return Ok(false);
    }
    let mut pages = sums.to_vec();
    for _ in 0..2 {
        let library = library_total(&pages);
        if library != (0, straight_sum(memory)) {
            return Err(format!("total of right sums: library {library:?}, straight sum {}", straight_sum(memory)));
        }
        shuffle(random, &mut pages);
    }
    Ok(true)
}

fn shuffle(random: &Random, pages: &mut [u16]) {
    for i in (1..pages.len()).rev() {
        pages.swap(i, random.below(i as u32 + 1) as usize);
    }
}

/// Number and total, as the library gives them.
fn library_total(sums: &[u16]) -> (u8, u16) {
    r6501q::total(sums).map_or_else(|number| (u8::from(number), 0), |total| (0, total))
}

/// The library's total of a page list against the model's.
pub fn check_total(sums: &[u16]) -> Result<(), String> {
    let (library, model) = (library_total(sums), total(sums));
    if library != model {
        return Err(format!("total of {} sums: library {library:?}, model {model:?}", sums.len()));
    }
    Ok(())
}

/// Totals of random page lists, 256 sums or not. Gives how many were of 256 and how many of another length, or the text
/// of a difference.
pub fn check_totals(seed: u64, lists: u64) -> Result<(u64, u64), String> {
    let (mut of_256, mut others) = (0, 0);
    let memory = vec![0; plain_clock::run::MEMORY_LENGTH];
    for index in 0..lists {
        let random = &Random::new(seed ^ 0x5555, index);
        let mut sums = vec![0; ENTRIES];
        fill(random, &mut sums, &memory);
        if random.flag() {
            // one entry alone, so that each page must count
            let page = random.below(ENTRIES as u32) as usize;
            sums.fill(0);
            sums[page] = random.word();
        }
        sums.truncate(if random.flag() { PAGES } else { lent_length(random) });
        check_total(&sums).map_err(|text| format!("seed {seed}, page list {index}: {text}"))?;
        *(if sums.len() == PAGES { &mut of_256 } else { &mut others }) += 1;
    }
    Ok((of_256, others))
}
