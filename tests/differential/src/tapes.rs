//! Random and damaged tapes, with page sums and lacking them: the library's loader against the model's.

use crate::compare::list_difference;
use crate::memories::LENGTH;
use crate::random::Random;
use crate::sums::{check_straight_sum, check_total, fill, lent_length};
use plain_clock::load_tape;
use plain_clock::sums::{load_tape_with_sums, PAGES};

/// The numbers of a load: 0, 1, 8, 9, 10, and with sums 13.
pub const NUMBERS: [u8; 6] = [0, 1, 8, 9, 10, 13];

/// How many tapes ended with each of `NUMBERS`; and how many with sums were loaded, the sums being right before or
/// wrong.
#[derive(Default)]
pub struct Counts {
    pub numbers: [u64; 6],
    pub right: u64,
    pub wrong: u64,
}

impl Counts {
    fn add(&mut self, number: u8) {
        if let Some(place) = NUMBERS.iter().position(|&n| n == number) {
            self.numbers[place] += 1;
        }
    }
}

/// Loads random tapes on both sides. Gives the counts, or the text of a difference.
pub fn check_tapes(seed: u64, tapes: u64) -> Result<Counts, String> {
    let mut counts = Counts::default();
    let mut sides = Memories::new();
    for index in 0..tapes {
        let random = &Random::new(!seed, index);
        let tape = tape(random);
        let length = if random.percent(3) { random.pick(&[0, 1, 65_535, 65_537]) } else { LENGTH };
        let lent = random.percent(60).then(|| lent_length(random));
        if random.percent(10) {
            sides.renew_sums(random);
        }
        let number = sides.compare(&tape, length, lent, &mut counts).map_err(|text| {
            let tape = String::from_utf8_lossy(&tape);
            format!("seed {seed}, tape {index}, memory of {length} bytes, {lent:?} sums: {text}\n{tape}")
        })?;
        counts.add(number);
    }
    for (records, lent) in [65_534, 65_535, 65_536, 65_537].into_iter().flat_map(|n| [(n, None), (n, Some(PAGES))]) {
        let compared = sides.compare(&long_tape(records), LENGTH, lent, &mut counts);
        counts.add(compared.map_err(|text| format!("{records} records, {lent:?} sums: {text}"))?);
    }
    Ok(counts)
}

/// A memory and a page list for each side, alike before and after each tape.
struct Memories {
    library: Vec<u8>,
    model: Vec<u8>,
    library_sums: Vec<u16>,
    model_sums: Vec<u16>,
}

impl Memories {
    fn new() -> Self {
        let memory: Vec<u8> = (0..LENGTH + 1).map(|i| (i % 251) as u8).collect();
        let sums = vec![0; PAGES + 44];
        Memories { library: memory.clone(), model: memory, library_sums: sums.clone(), model_sums: sums }
    }

    /// Other sums, right or wrong.
    fn renew_sums(&mut self, random: &Random) {
        fill(random, &mut self.model_sums, &self.model[..LENGTH]);
        self.library_sums.copy_from_slice(&self.model_sums);
    }

    /// Loads the tape on both sides, lent so many sums or none. Gives the number, or the difference.
    fn compare(&mut self, tape: &[u8], length: usize, lent: Option<usize>, counts: &mut Counts) -> Result<u8, String> {
        let was_right = self.check_sums(tape)?;
        let (library, model) = (&mut self.library[..length], &mut self.model[..length]);
        let loaded = match lent {
            Some(sums) => r6501q::load_with_sums(tape, library, &mut self.library_sums[..sums]),
            None => r6501q::load(tape, library),
        };
        let (number, place) = match lent {
            Some(sums) => load_tape_with_sums(tape, model, &mut self.model_sums[..sums]),
            None => load_tape(tape, model),
        };
        if (u8::from(loaded.number), loaded.place) != (number, place) {
            let library = u8::from(loaded.number);
            return Err(format!("library {library} at {}, model {number} at {place}", loaded.place));
        }
        if lent.is_some() && number == 0 {
            *(if was_right { &mut counts.right } else { &mut counts.wrong }) += 1;
            if self.check_sums(tape)? != was_right {
                return Err("right sums became wrong, or wrong ones right".to_string());
            }
        }
        let different = list_difference("memory", &self.library, &self.model)
            .or_else(|| list_difference("sums", &self.library_sums, &self.model_sums));
        different.map_or(Ok(number), Err)
    }

    /// Whether the library's sums are right; the text where a total differs.
    fn check_sums(&self, tape: &[u8]) -> Result<bool, String> {
        let sums = &self.library_sums[..PAGES];
        check_total(sums)?;
        check_straight_sum(&Random::new(0, tape.len() as u64), sums, &self.library[..LENGTH])
    }
}

/// A record with its check sum.
fn record(tape: &mut Vec<u8>, address: u16, data: &[u8]) {
    let [high, low] = address.to_be_bytes();
    let sum = [high, low].iter().chain(data).map(|&byte| u32::from(byte)).sum::<u32>() + data.len() as u32;
    tape.extend(format!(";{:02X}{address:04X}", data.len()).bytes());
    for byte in data {
        tape.extend(format!("{byte:02X}").bytes());
    }
    tape.extend(format!("{:04X}", sum % 65_536).bytes());
}

/// What stands between records: anything but `;`.
fn between(random: &Random, tape: &mut Vec<u8>) {
    match random.below(4) {
        0 => {}
        1 => tape.push(b'\n'),
        2 => tape.extend(b"\r\n\0"),
        _ => {
            for _ in 0..random.below(8) {
                let byte = random.byte();
                tape.push(if byte == b';' { b':' } else { byte });
            }
        }
    }
}

fn address(random: &Random, length: usize) -> u16 {
    match random.below(8) {
        0 => random.below(0x48) as u16,
        1 => (0x40u16).wrapping_sub(random.below(0x18) as u16),
        // up to the memory's end, and past it
        2 => (LENGTH - length) as u16,
        3 => 0u16.wrapping_sub(random.below(0x1A) as u16),
        _ => random.word(),
    }
}

fn tape(random: &Random) -> Vec<u8> {
    let mut tape = Vec::new();
    if random.percent(3) {
        let length = random.below(60);
        return (0..length).map(|_| random.pick(b";;;0123456789ABCDEFabcdef;0000\n:")).collect();
    }
    let records = random.pick(&[0, 1, 1, 2, 3, random.below(12)]);
    for _ in 0..records {
        between(random, &mut tape);
        let length =
            random.pick(&[1, 2, 0x17, 0x18, 0x18, random.between(1, 0x18), random.between(0x16, 0x1B)]) as usize;
        let data: Vec<u8> = (0..length).map(|_| random.pick(&[0xFF, 0x00, random.byte()])).collect();
        let address = address(random, length);
        record(&mut tape, address, &data);
    }
    between(random, &mut tape);
    let counted = if random.percent(6) { random.below(70_000) as u16 } else { records as u16 + 1 };
    record(&mut tape, counted, &[]);
    if random.percent(50) {
        tape.extend(b" ;what follows is ignored;");
    }
    for _ in 0..random.pick(&[0, 0, 1, 1, 2]) {
        mutate(random, &mut tape);
    }
    tape
}

/// One change of one character, or the tape cut off.
fn mutate(random: &Random, tape: &mut Vec<u8>) {
    if tape.is_empty() {
        return;
    }
    let at = random.below(tape.len() as u32) as usize;
    match random.below(6) {
        0 => tape.truncate(at),
        1 => {
            tape.remove(at);
        }
        2 => tape.insert(at, random.pick(b";0FG \n")),
        3 => tape[at] = tape[at].to_ascii_lowercase(),
        4 => tape[at] = random.pick(b"0123456789ABCDEF"),
        _ => tape[at] = random.pick(&[b';', b'/', b':', b'@', b'G', b'`', b'a', b'f', b'g', random.byte()]),
    }
}

/// A tape of so many records, the last included. More than 65,535 never match its count.
fn long_tape(records: u32) -> Vec<u8> {
    let mut tape = Vec::new();
    for i in 1..records {
        record(&mut tape, (i % 65_000) as u16, &[i as u8]);
    }
    record(&mut tape, records as u16, &[]);
    tape
}
