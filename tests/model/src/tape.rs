//! 01, Tape (source document 002).

use crate::registers::REGISTERS_END;
use crate::run::MEMORY_LENGTH;

/// "count above 18h" is malformed.
const MAXIMUM_COUNT: usize = 0x18;
/// `;`, count, address and check sum of a record without data.
const EMPTY_RECORD_LENGTH: usize = 11;

/// One record whose digits are all there.
struct Record {
    count: usize,
    address: usize,
    data: Vec<u8>,
    check_sum: usize,
}

/// Reads a tape into the memory. Gives the number (0, 1, 8, 9, 10) and the place. "8 to 10 the record's place, memory
/// unchanged"; "on a tape 1 comes first, with place 0, then the earliest record, then 8, 9, 10"; "An accepted tape
/// gives 0 and the place past its last record; what follows is ignored."
pub fn load_tape(tape: &[u8], memory: &mut [u8]) -> (u8, usize) {
    if memory.len() != MEMORY_LENGTH {
        return (1, 0);
    }
    match read_records(tape) {
        Ok((records, end)) => {
            for record in &records {
                place_bytes(record, memory);
            }
            (0, end)
        }
        Err(refused) => refused,
    }
}

/// All records but the last, and the place past the last.
fn read_records(tape: &[u8]) -> Result<(Vec<Record>, usize), (u8, usize)> {
    let mut records = Vec::new();
    let mut position = 0;
    loop {
        // "Between records anything but `;` is skipped"; "a missing last record has the tape's length".
        let Some(skipped) = tape[position..].iter().position(|&byte| byte == b';') else {
            return Err((10, tape.len()));
        };
        let place = position + skipped;
        let record = parse_record(&tape[place + 1..]).ok_or((8, place))?;
        if record.check_sum != record_sum(&record) {
            return Err((9, place));
        }
        position = place + EMPTY_RECORD_LENGTH + 2 * record.count;
        if record.count == 0 {
            // "its address field being the number of records, itself included"
            return if record.address == records.len() + 1 { Ok((records, position)) } else { Err((10, place)) };
        }
        records.push(record);
    }
}

/// "`;`, count (2 hex digits), address (4), data, check sum (4)". None where malformed: "a digit missing or not of 0 to
/// 9, A to F; count above 18h; address + count above 65,536".
fn parse_record(text: &[u8]) -> Option<Record> {
    let count = number(text.get(0..2)?)?;
    let address = number(text.get(2..6)?)?;
    if count > MAXIMUM_COUNT || address + count > MEMORY_LENGTH {
        return None;
    }
    let digits = text.get(6..6 + 2 * count)?;
    let data = digits.chunks(2).map(|pair| number(pair).map(|value| value as u8)).collect::<Option<Vec<u8>>>()?;
    let check_sum = number(text.get(6 + 2 * count..10 + 2 * count)?)?;
    Some(Record { count, address, data, check_sum })
}

fn number(digits: &[u8]) -> Option<usize> {
    digits.iter().try_fold(0, |value, &digit| Some(16 * value + hex_digit(digit)?))
}

/// "0 to 9, A to F".
fn hex_digit(digit: u8) -> Option<usize> {
    match digit {
        b'0'..=b'9' => Some(usize::from(digit - b'0')),
        b'A'..=b'F' => Some(usize::from(digit - b'A') + 10),
        _ => None,
    }
}

/// "the sum of count, address and data bytes modulo 65,536".
fn record_sum(record: &Record) -> usize {
    let data_sum: usize = record.data.iter().map(|&byte| usize::from(byte)).sum();
    (record.count + record.address / 256 + record.address % 256 + data_sum) % 65_536
}

/// "Bytes land from the record's address onward; those below 40h are dropped."
fn place_bytes(record: &Record, memory: &mut [u8]) {
    for (index, &byte) in record.data.iter().enumerate() {
        let address = record.address + index;
        if address >= usize::from(REGISTERS_END) {
            memory[address] = byte;
        }
    }
}
