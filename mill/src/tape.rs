//! Paper tapes (document 01, "Tape"): written from a memory, loaded, and what is wrong with a refused one in words.
use crate::failure::Failure;
use r6501q::{load, Number, MEMORY_LENGTH};

/// The most data bytes of a record.
const COUNT: usize = 0x18;

/// Which records a tape has.
#[derive(Clone, Copy)]
pub enum Records {
    /// All, so that the tape is the parts over any memory.
    Every,
    /// Those with a byte that is not zero: the tape is the parts where it is loaded into a memory of zeros.
    NotZero,
}

/// A tape of parts of memory, each with the address of its first byte.
pub fn written(parts: &[(usize, Vec<u8>)], which: Records) -> String {
    let chunks = parts.iter().flat_map(|(start, bytes)| (*start..).step_by(COUNT).zip(bytes.chunks(COUNT)));
    let kept = chunks.filter(|(_, data)| matches!(which, Records::Every) || data.iter().any(|byte| *byte != 0));
    let records: Vec<String> = kept.map(|(address, data)| record(address, data)).collect();
    records.concat() + &record(records.len() + 1, &[])
}

/// Count, address, data and check sum; the last record has the number of records for its address.
fn record(address: usize, data: &[u8]) -> String {
    let head = [data.len(), address >> 8, address & 0xFF];
    let sum: usize = head.iter().sum::<usize>() + data.iter().map(|byte| usize::from(*byte)).sum::<usize>();
    let digits: String = data.iter().map(|byte| format!("{byte:02X}")).collect();
    format!(";{:02X}{address:04X}{digits}{:04X}\n", data.len(), sum % 65_536)
}

/// A memory of zeros with a tape in it; a refused tape is explained, `name` first.
pub fn loaded(name: &str, tape: &[u8]) -> Result<Vec<u8>, Failure> {
    loaded_over(vec![0; MEMORY_LENGTH], name, tape)
}

fn loaded_over(mut memory: Vec<u8>, name: &str, tape: &[u8]) -> Result<Vec<u8>, Failure> {
    let result = load(tape, &mut memory);
    match result.number {
        Number::Done => Ok(memory),
        number => Err(Failure::Tape(explained(name, tape, number, result.place))),
    }
}

/// What is wrong at the place of a refused record: line, what is found, what is expected, the number, the record.
fn explained(name: &str, tape: &[u8], number: Number, place: usize) -> String {
    let before = &tape[..place.min(tape.len())];
    let line = before.iter().filter(|byte| **byte == b'\n').count() + 1;
    let behind = Digits { rest: tape.get(place + 1..).unwrap_or(&[]), taken: 0 };
    let words = match number {
        Number::MalformedRecord => malformed(behind),
        Number::WrongCheckSum => wrong_sum(behind),
        Number::WrongLastRecord => return wrong_end(name, tape, line, behind, place),
        _ => None,
    };
    let words = words.unwrap_or_else(|| "the record is refused".to_string());
    let record = records_before(tape, place) + 1;
    format!("{name}:{line}: {words} ({}), in record {record}", u8::from(number))
}

/// The records that stand before a place. All of them are right: a tape is refused for its earliest faulty record.
fn records_before(tape: &[u8], place: usize) -> usize {
    tape[..place.min(tape.len())].iter().filter(|byte| **byte == b';').count()
}

fn wrong_end(name: &str, tape: &[u8], line: usize, mut behind: Digits<'_>, place: usize) -> String {
    let record = records_before(tape, place) + 1;
    let counted = behind.value(2).and_then(|_| behind.value(4));
    match counted {
        Ok(counted) if place < tape.len() => {
            format!("{name}:{line}: the last record counts {counted:04X}, it is record {record:04X} (10)")
        }
        _ => format!("{name}:{line}: the last record is missing, the tape ends after {} records (10)", record - 1),
    }
}

/// The digits behind a `;`, taken one after the other.
struct Digits<'a> {
    rest: &'a [u8],
    taken: usize,
}

impl Digits<'_> {
    /// The value of the next digits, or what stands in the place of one.
    fn value(&mut self, digits: usize) -> Result<usize, String> {
        let mut value = 0;
        for _ in 0..digits {
            self.taken += 1;
            let (first, rest) = self.rest.split_first().ok_or("the tape ends within the record")?;
            let digit = match first {
                b'0'..=b'9' => first - b'0',
                b'A'..=b'F' => first - b'A' + 10,
                other => {
                    return Err(format!(
                        "character {} behind `;` is {}, no digit of 0 to 9, A to F",
                        self.taken,
                        shown(*other)
                    ))
                }
            };
            self.rest = rest;
            value = 16 * value + usize::from(digit);
        }
        Ok(value)
    }
}

fn shown(byte: u8) -> String {
    match byte {
        b'\n' | b'\r' => "the line's end".to_string(),
        b' '..=b'~' => format!("`{}`", char::from(byte)),
        other => format!("byte {other:02X}h"),
    }
}

/// Why a record is malformed.
fn malformed(digits: Digits<'_>) -> Option<String> {
    malformed_part(digits).err()
}

fn malformed_part(mut digits: Digits<'_>) -> Result<(), String> {
    let count = digits.value(2)?;
    let address = digits.value(4)?;
    if count > COUNT {
        return Err(format!("count {count:02X} is above {COUNT:02X}"));
    }
    if address + count > MEMORY_LENGTH {
        return Err(format!("address {address:04X} and count {count:02X} go past FFFF"));
    }
    (0..count).try_for_each(|_| digits.value(2).map(|_| ()))?;
    digits.value(4).map(|_| ())
}

/// The check sum that stands there and the one that the bytes have.
fn wrong_sum(mut digits: Digits<'_>) -> Option<String> {
    let count = digits.value(2).ok()?;
    let mut sum = count;
    for _ in 0..count + 2 {
        sum += digits.value(2).ok()?;
    }
    let found = digits.value(4).ok()?;
    Some(format!("check sum {found:04X}, bytes add up to {:04X}", sum % 65_536))
}

#[cfg(test)]
mod tests {
    use super::*;

    const TAPE: &str = ";070200A95585004C040201DE\n;02FFFC000201FF\n;0000030003\n";

    #[test]
    fn a_written_tape_loads_as_the_memory_that_it_was_written_from() {
        let mut memory = vec![0; MEMORY_LENGTH];
        for (address, byte) in memory.iter_mut().enumerate().skip(0x40).filter(|(address, _)| address % 100 < 37) {
            *byte = (address % 251) as u8;
        }
        let parts = [(0x40, memory[0x40..0x1234].to_vec()), (0x1234, memory[0x1234..].to_vec())];
        let (whole, short) = (written(&parts, Records::Every), written(&parts, Records::NotZero));
        assert!(short.len() < whole.len());
        assert_eq!(loaded("tape", whole.as_bytes()), Ok(memory.clone()));
        assert_eq!(loaded("tape", short.as_bytes()), Ok(memory.clone()));
        // Over other bytes the whole tape is the image still, but for the registers; the short one is not.
        let other = vec![0xA5; MEMORY_LENGTH];
        let over = |tape: &str| loaded_over(other.clone(), "tape", tape.as_bytes()).unwrap();
        assert_eq!(over(&whole)[0x40..], memory[0x40..]);
        assert_ne!(over(&short)[0x40..], memory[0x40..]);
        assert_eq!(loaded("tape", TAPE.as_bytes()).unwrap()[0x200], 0xA9);
    }

    #[test]
    fn records_of_zeros_are_left_out_only_where_that_is_asked_for() {
        let parts = [(0x200, vec![0x55]), (0x300, vec![0; 25])];
        assert_eq!(written(&parts, Records::NotZero), ";010200550058\n;0000020002\n");
        let zeros = "00".repeat(24);
        let whole = format!(";010200550058\n;180300{zeros}001B\n;01031800001C\n;0000040004\n");
        assert_eq!(written(&parts, Records::Every), whole);
    }

    fn refused(tape: &str) -> String {
        match loaded("t", tape.as_bytes()) {
            Err(Failure::Tape(words)) => words,
            other => panic!("{other:?}"),
        }
    }

    #[test]
    fn a_wrong_check_sum_is_shown_beside_the_right_one() {
        assert_eq!(
            refused(&TAPE.replace("01DE", "01DF")),
            "t:1: check sum 01DF, bytes add up to 01DE (9), in record 1"
        );
        assert_eq!(
            refused(&TAPE.replace("0201FF", "0301FF")),
            "t:2: check sum 01FF, bytes add up to 0200 (9), in record 2"
        );
        assert_eq!(
            refused(&TAPE.replace("0003\n", "0004\n")),
            "t:3: check sum 0004, bytes add up to 0003 (9), in record 3"
        );
    }

    #[test]
    fn a_malformed_record_is_shown_by_its_wrong_part() {
        let wrong_digit = "t:1: character 7 behind `;` is `a`, no digit of 0 to 9, A to F (8), in record 1";
        assert_eq!(refused(&TAPE.replace("A9", "a9")), wrong_digit);
        let long = format!(";180200{}x", "FF".repeat(24));
        assert!(refused(&long).starts_with("t:1: character 55 behind `;` is `x`, no digit"));
        assert_eq!(refused(";19020000"), "t:1: count 19 is above 18 (8), in record 1");
        assert_eq!(refused(";02FFFF0000"), "t:1: address FFFF and count 02 go past FFFF (8), in record 1");
        assert_eq!(refused(";0102"), "t:1: the tape ends within the record (8), in record 1");
        let line_end = "t:2: character 5 behind `;` is the line's end, no digit of 0 to 9, A to F (8), in record 1";
        assert_eq!(refused("\n;0102\n00"), line_end);
    }

    #[test]
    fn a_wrong_last_record_is_shown_with_its_count() {
        let wrong = TAPE.replace(";0000030003", ";0000040004");
        assert_eq!(refused(&wrong), "t:3: the last record counts 0004, it is record 0003 (10)");
        let missing = TAPE.replace(";0000030003\n", "");
        assert_eq!(refused(&missing), "t:3: the last record is missing, the tape ends after 2 records (10)");
        assert_eq!(refused(""), "t:1: the last record is missing, the tape ends after 0 records (10)");
    }

    #[test]
    fn every_cut_and_every_changed_byte_has_words() {
        for end in 0..TAPE.len() - 1 {
            assert!(refused(&TAPE[..end]).starts_with("t:"));
        }
        for place in 0..TAPE.len() - 1 {
            for byte in [0, b';', b'G', 0xFF] {
                let mut tape = TAPE.as_bytes().to_vec();
                tape[place] = byte;
                if let Err(failure) = loaded("t", &tape) {
                    assert!(!failure.to_string().contains("is refused"), "{place} {byte}: {failure}");
                }
            }
        }
    }
}
