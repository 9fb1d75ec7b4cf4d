//! Intel hex: `:`, count, address, kind, data and check sum as hexadecimal digits, a record to a line.

/// Bytes with the address of the first.
pub type Part = (u32, Vec<u8>);

// Kinds of records.
const DATA: u8 = 0;
const END: u8 = 1;
const SEGMENT: u8 = 2;
const SEGMENT_START: u8 = 3;
const UPPER_ADDRESS: u8 = 4;
const LINEAR_START: u8 = 5;

/// Whether a file looks like Intel hex.
pub fn looks_like(bytes: &[u8]) -> bool {
    let text = bytes.trim_ascii_start();
    text.first() == Some(&b':') && text.iter().take(64).all(u8::is_ascii)
}

/// The parts of a text, in its order. What is wrong is said with its line, as `LINE: what`.
pub fn parts(text: &str) -> Result<Vec<Part>, String> {
    let mut parts: Vec<Part> = Vec::new();
    let mut base = 0u32;
    for (number, line) in (1..).zip(text.lines()) {
        let line = line.trim();
        if line.is_empty() {
            continue;
        }
        let (kind, address, data) = record(line).map_err(|words| format!("{number}: {words}"))?;
        match kind {
            DATA => append(&mut parts, base.wrapping_add(u32::from(address)), data),
            END => return Ok(parts),
            SEGMENT | UPPER_ADDRESS => base = based(kind, &data).ok_or(format!("{number}: two bytes are wanted"))?,
            SEGMENT_START | LINEAR_START => {}
            _ => return Err(format!("{number}: a record of kind {kind:02X} is unknown")),
        }
    }
    Err(format!("{}: the last record (kind 01) is missing", text.lines().count()))
}

/// Data behind the last part's end goes on with it.
fn append(parts: &mut Vec<Part>, address: u32, data: Vec<u8>) {
    match parts.last_mut() {
        Some((start, bytes)) if start.wrapping_add(bytes.len() as u32) == address => bytes.extend(data),
        _ => parts.push((address, data)),
    }
}

fn based(kind: u8, data: &[u8]) -> Option<u32> {
    let [high, low] = data[..] else { return None };
    let value = u32::from(u16::from_be_bytes([high, low]));
    Some(if kind == SEGMENT { value << 4 } else { value << 16 })
}

/// Kind, address and data of a line.
fn record(line: &str) -> Result<(u8, u16, Vec<u8>), String> {
    let digits = line.strip_prefix(':').ok_or("the line does not begin with `:`")?;
    let bytes = hex_bytes(digits.as_bytes()).ok_or("a digit is missing, or is none of 0 to 9, A to F")?;
    let [count, high, low, kind, data @ .., sum] = &bytes[..] else {
        return Err("the record is too short".to_string());
    };
    if usize::from(*count) != data.len() {
        return Err(format!("count {count:02X}, and {:02X} bytes stand there", data.len()));
    }
    let found = bytes[..bytes.len() - 1].iter().fold(0u8, |total, byte| total.wrapping_add(*byte)).wrapping_neg();
    if found != *sum {
        return Err(format!("check sum {sum:02X}, bytes give {found:02X}"));
    }
    Ok((*kind, u16::from_be_bytes([*high, *low]), data.to_vec()))
}

fn hex_bytes(digits: &[u8]) -> Option<Vec<u8>> {
    let pairs = digits.chunks_exact(2);
    if !pairs.remainder().is_empty() {
        return None;
    }
    pairs.map(|pair| Some(digit(pair[0])? << 4 | digit(pair[1])?)).collect()
}

fn digit(character: u8) -> Option<u8> {
    char::from(character).to_digit(16).map(|value| value as u8)
}

#[cfg(test)]
mod tests {
    use super::*;

    #[test]
    fn records_that_follow_each_other_are_one_part() {
        let text = ":0300300002337A1E\n:010033004587\r\n\n:02FFFC003002D1\n:00000001FF\nanything";
        assert_eq!(parts(text), Ok(vec![(0x30, vec![0x02, 0x33, 0x7A, 0x45]), (0xFFFC, vec![0x30, 0x02])]));
    }

    #[test]
    fn addresses_may_have_upper_parts() {
        let upper = ":020000040001F9\n:0100000055AA\n:00000001FF\n";
        assert_eq!(parts(upper), Ok(vec![(0x10000, vec![0x55])]));
        let segment = ":020000020F00ED\n:0100000055AA\n:00000001FF\n";
        assert_eq!(parts(segment), Ok(vec![(0xF000, vec![0x55])]));
    }

    #[test]
    fn what_is_wrong_is_said_with_its_line() {
        let refused = |text: &str| parts(text).unwrap_err();
        assert_eq!(refused(":0100000055AB"), "1: check sum AB, bytes give AA");
        assert_eq!(refused("\n:0200000055AA"), "2: count 02, and 01 bytes stand there");
        assert_eq!(refused(":0100000055A"), "1: a digit is missing, or is none of 0 to 9, A to F");
        assert_eq!(refused("0100000055AA"), "1: the line does not begin with `:`");
        assert_eq!(refused(":0100000055AA\n"), "1: the last record (kind 01) is missing");
        assert_eq!(refused(":00000009F7"), "1: a record of kind 09 is unknown");
        assert_eq!(refused(":0100000401FA"), "1: two bytes are wanted");
        assert_eq!(refused(":00"), "1: the record is too short");
    }
}
