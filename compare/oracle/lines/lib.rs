//! The desk's lines (docs/DESK.md): a request's words, and numbers and bytes as an answer shows them.

use std::fmt::Write;

const BYTES_MOST: usize = 262_144;
const LINE_MOST: usize = 1_179_648;

/// The line can't be read.
pub struct Unreadable;

/// What is left of a line; `None` once its last word is taken.
pub struct Words<'a>(Option<&'a [u8]>);

impl<'a> Words<'a> {
    /// Of a line that is too long there is no word to be had.
    pub fn new(line: &'a [u8]) -> Self {
        Self((line.len() <= LINE_MOST).then_some(line))
    }

    pub fn word(&mut self) -> Result<&'a [u8], Unreadable> {
        let line = self.0.ok_or(Unreadable)?;
        let space = line.iter().position(|b| *b == b' ');
        self.0 = space.map(|at| &line[at + 1..]);
        Ok(&line[..space.unwrap_or(line.len())])
    }

    /// No word may be left.
    pub fn end(&self) -> Result<(), Unreadable> {
        if self.0.is_none() { Ok(()) } else { Err(Unreadable) }
    }

    fn number(&mut self, most: u64) -> Result<u64, Unreadable> {
        let word = self.word()?;
        if word.is_empty() || !word.iter().all(u8::is_ascii_digit) {
            return Err(Unreadable);
        }
        let value = word.iter().fold(0u64, |value, digit| (value * 10 + u64::from(digit - b'0')).min(most + 1));
        if value <= most { Ok(value) } else { Err(Unreadable) }
    }

    pub fn u8(&mut self) -> Result<u8, Unreadable> {
        Ok(self.number(u8::MAX.into())? as u8)
    }

    pub fn u16(&mut self) -> Result<u16, Unreadable> {
        Ok(self.number(u16::MAX.into())? as u16)
    }

    pub fn u32(&mut self) -> Result<u32, Unreadable> {
        Ok(self.number(u32::MAX.into())? as u32)
    }

    /// A number that can only be 0 or 1.
    pub fn flag(&mut self) -> Result<bool, Unreadable> {
        Ok(self.number(1)? == 1)
    }

    pub fn bytes(&mut self) -> Result<Vec<u8>, Unreadable> {
        let word = self.word()?;
        if word == b"-" {
            return Ok(Vec::new());
        }
        let (pairs, odd) = word.as_chunks::<2>();
        if pairs.is_empty() || !odd.is_empty() || pairs.len() > BYTES_MOST {
            return Err(Unreadable);
        }
        pairs.iter().map(|[high, low]| Ok(nibble(*high)? << 4 | nibble(*low)?)).collect()
    }
}

fn nibble(digit: u8) -> Result<u8, Unreadable> {
    match digit {
        b'0'..=b'9' => Ok(digit - b'0'),
        b'a'..=b'f' => Ok(digit - b'a' + 10),
        _ => Err(Unreadable),
    }
}

/// Bytes as a line shows them.
pub fn shown(bytes: &[u8]) -> String {
    const DIGITS: &[u8; 16] = b"0123456789abcdef";
    if bytes.is_empty() {
        return "-".into();
    }
    bytes.iter().flat_map(|b| [b >> 4, b & 15]).map(|n| char::from(DIGITS[usize::from(n)])).collect()
}

/// Numbers as a line shows them, a space before each.
pub fn listed(numbers: &[u32]) -> String {
    let mut out = String::new();
    for number in numbers {
        let _ = write!(out, " {number}");
    }
    out
}
