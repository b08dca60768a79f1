//! Requests for lost lines, from document 02 (#109): what an inbox asks for, and what a request asks.

use crate::frame::{heard, Frame, LINE};
use crate::plain::BATCH;
use std::collections::BTreeSet;

pub const REQUEST: u32 = 15;

pub const ONE: u32 = 0x10;
pub const RUN: u32 = 0x11;
pub const COMPLETE: u32 = 0x12;

/// The highest index that a frame can have.
pub const LAST: u32 = 4095;

/// First and last index of each run of neighbours, ascending.
pub fn runs(indexes: impl IntoIterator<Item = u32>) -> Vec<(u32, u32)> {
    let mut runs: Vec<(u32, u32)> = vec![];
    for index in indexes {
        match runs.last_mut() {
            Some((_, last)) if *last + 1 == index => *last = index,
            _ => runs.push((index, index)),
        }
    }
    runs
}

/// The line that asks from a first index to a last; its place is not yet told.
pub fn span(batch: u32, (first, last): (u32, u32)) -> Frame {
    let (kind, value) = if first == last { (ONE, 0) } else { (RUN, last) };
    Frame { batch, index: 0, count: 0, kind, key: first, value }
}

pub fn complete(batch: u32) -> Frame {
    Frame { batch, index: 0, count: 0, kind: COMPLETE, key: 0, value: 0 }
}

/// Tells each line its place and how many there are.
pub fn placed(mut lines: Vec<Frame>) -> Vec<Frame> {
    let count = lines.len() as u32;
    for (line, index) in lines.iter_mut().zip(0..) {
        (line.index, line.count) = (index, count);
    }
    lines
}

pub fn text(lines: &[Frame]) -> Vec<u8> {
    lines.iter().flat_map(Frame::line).collect()
}

/// The lines that a sound inbox asks with.
pub fn ask(inbox: &[u32]) -> Vec<Frame> {
    let (batch, count) = (inbox[0], inbox[1]);
    let runs = match count {
        0 => vec![(0, LAST)],
        _ => runs((0..count).filter(|&index| !heard(inbox, index))),
    };
    let asking: Vec<Frame> = runs.into_iter().map(|run| span(batch, run)).collect();
    placed(if asking.is_empty() { vec![complete(batch)] } else { asking })
}

/// The first and the last index that a line of a known kind asks, if any; none where a rule of the line itself is broken.
fn spoken(line: &Frame, lines: usize) -> Option<Option<(u32, u32)>> {
    let Frame { key, value, .. } = *line;
    match line.kind {
        ONE if value == 0 && key <= LAST => Some(Some((key, key))),
        RUN if key < value && value <= LAST => Some(Some((key, value))),
        COMPLETE if key == 0 && value == 0 && lines == 1 => Some(None),
        _ => None,
    }
}

/// The lines of a well-formed request and the indexes that it asks.
fn read(request: &[u8]) -> Option<(Vec<Frame>, BTreeSet<u32>)> {
    let lines: Vec<Frame> = request.chunks(LINE).map(Frame::fields).collect::<Result<_, _>>().ok()?;
    let mut asked = BTreeSet::new();
    for (place, line) in lines.iter().enumerate() {
        if (line.index as usize, line.count as usize) != (place, lines.len()) {
            return None;
        }
        if let Some((first, last)) = spoken(line, lines.len())? {
            if asked.last().is_some_and(|&before| first <= before) {
                return None;
            }
            asked.extend(first..=last);
        }
    }
    (!lines.is_empty()).then_some((lines, asked))
}

/// The indexes that a request of a batch asks, or its number: every line is read before any batch number is compared.
pub fn asked(request: &[u8], batch: u32) -> Result<BTreeSet<u32>, u32> {
    let (lines, asked) = read(request).ok_or(REQUEST)?;
    if lines.iter().any(|line| line.batch != batch) {
        return Err(BATCH);
    }
    Ok(asked)
}
