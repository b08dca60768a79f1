//! A version restored from a sorted listing, from document 02 (#112): lines of 16 digits and a newline, key then value.

use crate::plain::ZERO;
use crate::rules::{Supply, Tree};
use std::fmt::{self, Debug, Formatter};

pub const LINE: u32 = 17;
pub const ORDER: u32 = 18;

/// The text is cut every so many bytes.
pub const BYTES: usize = 17;

/// A key and its value.
pub type Entry = (u32, u32);

/// What the first faulty line is told to have, and its number from 0.
#[derive(Clone, Copy, PartialEq, Eq, Debug)]
pub struct Fault {
    pub number: u32,
    pub line: u64,
}

/// The bytes of a listing; what is told of a long one is how it begins.
#[derive(Clone)]
pub struct Text(pub Vec<u8>);

impl Debug for Text {
    fn fmt(&self, f: &mut Formatter) -> fmt::Result {
        let shown = &self.0[..self.0.len().min(20 * BYTES)];
        write!(f, "{} bytes {:?}", self.0.len(), String::from_utf8_lossy(shown))
    }
}

/// The lines of entries.
pub fn lines(entries: &[Entry]) -> Vec<u8> {
    entries.iter().flat_map(|(key, value)| format!("{key:08x}{value:08x}\n").into_bytes()).collect()
}

/// The entry of a piece, which is a line only with all of its 17 bytes.
fn entry(piece: &[u8]) -> Option<Entry> {
    let digits = piece.strip_suffix(b"\n").filter(|digits| digits.len() == 16)?;
    if !digits.iter().all(|digit| matches!(digit, b'0'..=b'9' | b'a'..=b'f')) {
        return None;
    }
    let both = u64::from_str_radix(std::str::from_utf8(digits).ok()?, 16).ok()?;
    Some(((both >> 32) as u32, both as u32))
}

/// A piece after the entry before it. On one line 17 goes before 13 and 13 before 18.
fn judged(piece: &[u8], before: Option<&Entry>) -> Result<Entry, u32> {
    let (key, value) = entry(piece).ok_or(LINE)?;
    if value == 0 {
        Err(ZERO)
    } else if before.is_some_and(|&(last, _)| key <= last) {
        Err(ORDER)
    } else {
        Ok((key, value))
    }
}

/// The entries of a text, or its first faulty line.
pub fn entries(text: &[u8]) -> Result<Vec<Entry>, Fault> {
    let mut entries = vec![];
    for piece in text.chunks(BYTES) {
        let line = entries.len() as u64;
        let entry = judged(piece, entries.last()).map_err(|number| Fault { number, line })?;
        entries.push(entry);
    }
    Ok(entries)
}

/// From the middle: the left side is made first, then the right, then the node between them.
pub fn build(supply: &mut Supply, entries: &[Entry]) -> Tree {
    if entries.is_empty() {
        return None;
    }
    let middle = entries.len() / 2;
    let left = build(supply, &entries[..middle]);
    let right = build(supply, &entries[middle + 1..]);
    let (key, value) = entries[middle];
    supply.make(key, value, left, right)
}
