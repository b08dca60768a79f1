//! Frame lines and inboxes, from document 01; the faults of a line, from document 02 (#102).

use crate::walk::Change;

pub const LINE: usize = 35;

pub const FRAME: u32 = 7;
pub const DIGIT: u32 = 10;
pub const KIND: u32 = 11;
pub const RANGE: u32 = 12;

/// What is wrong with a line, and the first bad digit's place; the place is 0 with every other number.
#[derive(Clone, Copy, PartialEq, Eq, Debug)]
pub struct Fault {
    pub number: u32,
    pub place: u32,
}

fn fault(number: u32) -> Fault {
    Fault { number, place: 0 }
}

#[derive(Clone, Copy, PartialEq, Eq, Debug)]
pub struct Frame {
    pub batch: u32,
    pub index: u32,
    pub count: u32,
    pub kind: u32,
    pub key: u32,
    pub value: u32,
}

impl Frame {
    pub fn line(&self) -> Vec<u8> {
        let Frame { batch, index, count, kind, key, value } = self;
        format!("{batch:08x}{index:04x}{count:04x}{kind:02x}{key:08x}{value:08x}\n").into_bytes()
    }

    pub fn legal(&self) -> bool {
        let placed = (1..=4096).contains(&self.count) && self.index < self.count;
        match self.kind {
            0 => placed && self.count == 1 && self.key == 0 && self.value == 0,
            1 => placed,
            2 => placed && self.value == 0,
            _ => false,
        }
    }

    /// The six fields, whatever they hold; a fault of length, newline or digits.
    pub fn fields(line: &[u8]) -> Result<Frame, Fault> {
        let digits = line.strip_suffix(b"\n").filter(|digits| digits.len() == 34).ok_or(fault(FRAME))?;
        let bad = |c: &u8| !(c.is_ascii_digit() || (b'a'..=b'f').contains(c));
        if let Some(place) = digits.iter().position(bad) {
            return Err(Fault { number: DIGIT, place: place as u32 });
        }
        let text = std::str::from_utf8(digits).unwrap();
        let field = |from: usize, to: usize| u32::from_str_radix(&text[from..to], 16).unwrap();
        Ok(Frame {
            batch: field(0, 8),
            index: field(8, 12),
            count: field(12, 16),
            kind: field(16, 18),
            key: field(18, 26),
            value: field(26, 34),
        })
    }

    /// The one fault that a line is told to have, or its frame: its length and newline first, then digits, kind, other fields.
    pub fn read(line: &[u8]) -> Result<Frame, Fault> {
        let frame = Frame::fields(line)?;
        match (frame.kind, frame.legal()) {
            (3.., _) => Err(fault(KIND)),
            (_, false) => Err(fault(RANGE)),
            (_, true) => Ok(frame),
        }
    }

    /// The frame, where it does not matter what is wrong.
    pub fn parse(line: &[u8]) -> Option<Frame> {
        Frame::read(line).ok()
    }
}

/// The frames of a delta; an empty one is the single frame "nothing changed".
pub fn frames(batch: u32, delta: &[Change]) -> Vec<Frame> {
    if delta.is_empty() {
        return vec![Frame { batch, index: 0, count: 1, kind: 0, key: 0, value: 0 }];
    }
    let count = delta.len() as u32;
    let frame = |(index, change): (usize, &Change)| {
        let (kind, key, value) = match *change {
            Change::Put(key, value) => (1, key, value),
            Change::Remove(key) => (2, key, 0),
        };
        Frame { batch, index: index as u32, count, kind, key, value }
    };
    delta.iter().enumerate().map(frame).collect()
}

pub const INBOX: usize = 130;

pub fn heard(inbox: &[u32], index: u32) -> bool {
    inbox[2 + index as usize / 32] >> (index % 32) & 1 == 1
}

pub fn hear(inbox: &mut [u32], index: u32) {
    inbox[2 + index as usize / 32] |= 1 << (index % 32);
}

pub fn missing(inbox: &[u32]) -> u32 {
    match inbox[1] {
        0 => u32::MAX,
        count => count - (0..count).filter(|&index| heard(inbox, index)).count() as u32,
    }
}
