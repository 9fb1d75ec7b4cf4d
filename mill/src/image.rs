//! Images of memory: binary files, each with the address where it lies, and Intel hex, which has its own.
use crate::failure::Failure;
use crate::files::{bytes, failed};
use crate::intel_hex;
use crate::units::{address, grouped};
use r6501q::MEMORY_LENGTH;
use std::path::Path;

/// A memory of which some bytes are given.
pub struct Images {
    bytes: Vec<Option<u8>>,
}

impl Images {
    /// Nothing given.
    pub fn none() -> Images {
        Images { bytes: vec![None; MEMORY_LENGTH] }
    }

    /// Adds a file as it is named on the command line: `FILE@ADDRESS`, or an Intel hex file's name alone.
    pub fn add(&mut self, word: &str) -> Result<(), Failure> {
        let (name, at) = match word.rsplit_once('@') {
            Some((name, at)) => (name, Some(address(at).map_err(|words| Failure::Usage(format!("{word}: {words}")))?)),
            None => (word, None),
        };
        let path = Path::new(name);
        let content = bytes(path)?;
        match (at, intel_hex::looks_like(&content)) {
            (Some(at), false) => self.put(path, u32::from(at), &content),
            (None, true) => self.add_hex(path, content),
            (Some(_), true) => usage(format!("{word}: Intel hex has its own addresses, leave `@` out")),
            (None, false) => usage(format!("{word}: a binary image needs its address, as {word}@F000")),
        }
    }

    fn add_hex(&mut self, path: &Path, content: Vec<u8>) -> Result<(), Failure> {
        let text = String::from_utf8(content).map_err(|_| failed(path, "is no text"))?;
        let parts = intel_hex::parts(&text).map_err(|words| Failure::File(format!("{}:{words}", path.display())))?;
        parts.iter().try_for_each(|(at, part)| self.put(path, *at, part))
    }

    fn put(&mut self, path: &Path, at: u32, content: &[u8]) -> Result<(), Failure> {
        let start = at as usize;
        if start + content.len() > MEMORY_LENGTH {
            let length = grouped(content.len() as u64);
            return Err(failed(path, format!("{length} bytes from {at:04X}h on go past FFFFh")));
        }
        for (offset, byte) in content.iter().enumerate() {
            if self.bytes[start + offset].replace(*byte).is_some() {
                return Err(failed(path, format!("{:04X}h is given twice", start + offset)));
            }
        }
        Ok(())
    }

    /// The byte at an address, if it is given.
    pub fn at(&self, address: u16) -> Option<u8> {
        self.bytes[usize::from(address)]
    }

    /// The given bytes that follow each other, each part with the address of its first.
    pub fn parts(&self) -> Vec<(usize, Vec<u8>)> {
        let mut parts: Vec<(usize, Vec<u8>)> = Vec::new();
        for (address, byte) in self.bytes.iter().enumerate().filter_map(|(address, byte)| Some((address, (*byte)?))) {
            match parts.last_mut() {
                Some((start, bytes)) if *start + bytes.len() == address => bytes.push(byte),
                _ => parts.push((address, vec![byte])),
            }
        }
        parts
    }

    /// Whether bytes are given for the registers' addresses, 00h to 3Fh, that are not zero.
    pub fn has_registers(&self) -> bool {
        self.bytes[..0x40].iter().any(|byte| byte.is_some_and(|value| value != 0))
    }
}

fn usage<T>(words: String) -> Result<T, Failure> {
    Err(Failure::Usage(words))
}

#[cfg(test)]
mod tests {
    use super::*;

    fn put(images: &mut Images, at: u32, content: &[u8]) -> Result<(), Failure> {
        images.put(Path::new("image"), at, content)
    }

    #[test]
    fn bytes_lie_from_the_address_onward() {
        let mut images = Images::none();
        put(&mut images, 0xFFFE, &[1, 2]).unwrap();
        put(&mut images, 0x0800, &[3]).unwrap();
        assert_eq!((images.at(0xFFFF), images.at(0x0800), images.at(0x0801)), (Some(2), Some(3), None));
        assert_eq!(images.parts(), [(0x0800, vec![3]), (0xFFFE, vec![1, 2])]);
        assert!(!images.has_registers());
    }

    #[test]
    fn bytes_past_the_end_and_bytes_given_twice_are_refused() {
        let mut images = Images::none();
        let past = put(&mut images, 0xFFFF, &[1, 2]).unwrap_err();
        assert_eq!(past, Failure::File("image: 2 bytes from FFFFh on go past FFFFh".into()));
        put(&mut images, 0x10, &[1, 2]).unwrap();
        let twice = put(&mut images, 0x11, &[1]).unwrap_err();
        assert_eq!(twice, Failure::File("image: 0011h is given twice".into()));
        assert!(images.has_registers());
    }
}
