//! Requests made by hand, so that what they ask is known; and ways to break one, so that it is known to be broken.

use crate::frame::{Frame, LINE};
use crate::parts::lines::planted::bad_digits;
use crate::random::Random;
use crate::request::{complete, placed, span, COMPLETE, LAST, ONE, RUN};
use std::collections::BTreeSet;

pub struct Made {
    pub lines: Vec<Frame>,
    pub asked: BTreeSet<u32>,
}

/// Up to so many lines from an index on, none past a last one. A run is written as one line or as neighbours.
pub fn made(random: &mut Random, batch: u32, from: u32, last: u32, most: usize) -> Made {
    let (mut lines, mut asked, mut next) = (vec![], BTreeSet::new(), from);
    while lines.len() < most && next <= last {
        let first = next + random.pick(&[0, 0, 1, 2, 7]);
        let end = first + random.pick(&[0, 0, 1, 1, 2, 5, 60]);
        if end > last {
            break;
        }
        lines.extend(written(random, batch, first, end));
        asked.extend(first..=end);
        next = end + 1;
    }
    if lines.is_empty() {
        lines.push(complete(batch));
    }
    Made { lines: placed(lines), asked }
}

fn written(random: &mut Random, batch: u32, first: u32, last: u32) -> Vec<Frame> {
    let middle = first + random.below((last - first + 1) as usize) as u32;
    match random.below(4) {
        0 if last - first < 8 => (first..=last).map(|index| span(batch, (index, index))).collect(),
        1 if middle < last => vec![span(batch, (first, middle)), span(batch, (middle + 1, last))],
        _ => vec![span(batch, (first, last))],
    }
}

/// A well-formed request of exactly so many lines, with a gap before and after each, that leaves room below 4,096.
pub fn apart(random: &mut Random, batch: u32, lines: usize) -> Vec<Frame> {
    let mut next = 1 + random.below(9) as u32;
    let line = |_| {
        let last = next + random.pick(&[0, 0, 1, 3]);
        let line = span(batch, (next, last));
        next = last + 2 + random.below(4) as u32;
        line
    };
    placed((0..lines).map(line).collect())
}

/// The last index that a line asks.
pub fn end(line: &Frame) -> u32 {
    if line.kind == ONE {
        line.key
    } else {
        line.value
    }
}

/// Breaks the line at a place of a well-formed request of kinds 10 and 11; false where that line cannot be broken so.
pub type Break = fn(&mut Random, &mut Vec<Frame>, usize) -> bool;

fn large(random: &mut Random) -> u32 {
    random.pick(&[LAST + 1, LAST + 2, 8191, 1 << 16, 1 << 31, u32::MAX - 1])
}

fn bit(random: &mut Random) -> u32 {
    1 << random.below(32)
}

fn becomes(line: &mut Frame, kind: u32, key: u32, value: u32) -> bool {
    (line.kind, line.key, line.value) = (kind, key, value);
    true
}

const OTHER_KINDS: [u32; 16] = [0, 1, 2, 3, 9, 10, 11, 12, 15, 0x13, 0x14, 0x1f, 0x20, 0x50, 0x90, 0xff];

pub const BREAKS: [(&str, Break); 22] = [
    ("another kind", |random, lines, at| {
        lines[at].kind = random.pick(&OTHER_KINDS);
        true
    }),
    ("a frame of the batch", |_, lines, at| becomes(&mut lines[at], 0, 0, 0)),
    ("an index too high", |random, lines, at| {
        lines[at].index = random.pick(&[at as u32 + 1, lines.len() as u32, 4095, 65535]).max(at as u32 + 1);
        true
    }),
    ("an index too low", |random, lines, at| {
        lines[at].index = random.below(at.max(1)) as u32;
        at > 0
    }),
    ("a count too high", |random, lines, at| {
        lines[at].count += random.pick(&[1, 1, 2, 4096]);
        true
    }),
    ("a count too low", |random, lines, at| {
        lines[at].count = random.below(lines.len()) as u32;
        true
    }),
    ("every count too high", |_, lines, _| {
        lines.iter_mut().for_each(|line| line.count += 1);
        true
    }),
    ("a single index with a value", |random, lines, at| {
        let (key, bit) = (lines[at].key, bit(random));
        let value = random.pick(&[key, key + 1, 1, bit]);
        becomes(&mut lines[at], ONE, key, value)
    }),
    ("a run of one", |_, lines, at| {
        let key = lines[at].key;
        becomes(&mut lines[at], RUN, key, key)
    }),
    ("a run that falls", |random, lines, at| {
        let (value, large) = (end(&lines[at]), large(random));
        let key = random.pick(&[value + 1, LAST, large]);
        becomes(&mut lines[at], RUN, key, value)
    }),
    ("a run to 0", |_, lines, at| {
        let key = lines[at].key;
        becomes(&mut lines[at], RUN, key, 0)
    }),
    ("an index above 4,095", |random, lines, at| becomes(&mut lines[at], ONE, large(random), 0)),
    ("an index as high as one that is asked, modulo 65,536", |_, lines, at| {
        let key = lines[at].key + (1 << 16);
        becomes(&mut lines[at], ONE, key, 0)
    }),
    ("a run that ends above 4,095", |random, lines, at| {
        let key = lines[at].key;
        becomes(&mut lines[at], RUN, key, large(random))
    }),
    ("a run above 4,095", |random, lines, at| {
        let key = large(random);
        becomes(&mut lines[at], RUN, key, key + 1)
    }),
    ("the index before again", |_, lines, at| {
        at > 0 && {
            let key = end(&lines[at - 1]);
            becomes(&mut lines[at], ONE, key, 0)
        }
    }),
    ("a run from the index before", |_, lines, at| {
        at > 0 && {
            let key = end(&lines[at - 1]);
            becomes(&mut lines[at], RUN, key, key + 1)
        }
    }),
    ("an index below the one before", |random, lines, at| {
        at > 0 && lines[at - 1].key > 0 && {
            let key = random.below(end(&lines[at - 1]) as usize) as u32;
            becomes(&mut lines[at], ONE, key, 0)
        }
    }),
    ("a run around the one before", |_, lines, at| {
        at > 0 && lines[at - 1].key > 0 && {
            let Frame { key, .. } = lines[at - 1];
            let value = end(&lines[at - 1]) + 1;
            becomes(&mut lines[at], RUN, key - 1, value)
        }
    }),
    ("complete beside another line", |_, lines, at| lines.len() > 1 && becomes(&mut lines[at], COMPLETE, 0, 0)),
    ("complete with a key", |random, lines, at| becomes(&mut lines[at], COMPLETE, bit(random), 0)),
    ("complete with a value", |random, lines, at| becomes(&mut lines[at], COMPLETE, 0, bit(random))),
];

/// The same for the bytes of a request.
pub type Garble = fn(&mut Random, &mut Vec<u8>, usize) -> bool;

/// The place of some byte of a line.
fn within(random: &mut Random, at: usize) -> usize {
    LINE * at + random.below(LINE)
}

pub const GARBLES: [(&str, Garble); 12] = [
    ("bad digits", |random, text, at| {
        bad_digits(random, &mut text[LINE * at..LINE * (at + 1)]);
        true
    }),
    ("a digit in upper case", |random, text, at| {
        text[LINE * at + random.below(LINE - 1)] = random.pick(b"ABCDEF");
        true
    }),
    ("no newline", |random, text, at| {
        text[LINE * at + LINE - 1] = random.pick(&[0, 9, 11, 13, b' ', b'0', 0x8a]);
        true
    }),
    ("a newline one byte early", |_, text, at| {
        text.swap(LINE * at + LINE - 2, LINE * at + LINE - 1);
        true
    }),
    ("a carriage return", |_, text, at| {
        text.insert(LINE * at + LINE - 1, b'\r');
        true
    }),
    ("a byte less", |random, text, at| {
        text.remove(within(random, at));
        true
    }),
    ("a byte more", |random, text, at| {
        text.insert(within(random, at), random.pick(b"0f\n"));
        true
    }),
    ("cut within a line", |random, text, at| {
        text.truncate(LINE * at + 1 + random.below(LINE - 1));
        true
    }),
    ("bytes after the last line", |random, text, _| {
        text.extend((0..1 + random.below(LINE - 1)).map(|_| random.pick(b"0\n")));
        true
    }),
    ("a line less", |_, text, at| {
        text.drain(LINE * at..LINE * (at + 1));
        true
    }),
    ("a line twice", |_, text, at| {
        let line = text[LINE * at..LINE * (at + 1)].to_vec();
        text.splice(LINE * at..LINE * at, line);
        true
    }),
    ("no byte", |_, text, _| {
        text.clear();
        true
    }),
];
