//! Small counts without any omission: every list of lines is made, the shortest for each set of indexes is what an inbox must
//! ask with, and a primary must send the same for all of them.

use super::asks::{inbox, judge};
use super::primary::Primary;
use crate::frame::LINE;
use crate::parts::Compared;
use crate::random::Random;
use crate::request::{complete, placed, span, text};
use std::collections::BTreeMap;

const COUNT: u32 = 9;
const BATCH: u32 = 0x0a0b_0c0d;

type Spans = Vec<(u32, u32)>;

/// Every ascending list of spans from an index on.
fn lists(from: u32) -> Vec<Spans> {
    let mut all = vec![vec![]];
    for first in from..COUNT {
        for last in first..COUNT {
            all.extend(lists(last + 1).into_iter().map(|rest| [vec![(first, last)], rest].concat()));
        }
    }
    all
}

fn set(spans: &Spans) -> u32 {
    spans.iter().flat_map(|&(first, last)| first..=last).map(|index| 1 << index).sum()
}

fn request(spans: &Spans) -> Vec<u8> {
    let lines: Vec<_> = spans.iter().map(|&run| span(BATCH, run)).collect();
    text(&placed(if lines.is_empty() { vec![complete(BATCH)] } else { lines }))
}

/// What is asked of each inbox is no longer than the shortest list, for each count up to the largest.
fn asked(shortest: &BTreeMap<u32, usize>) -> Compared {
    let mut compared = 0;
    for count in 1..=COUNT {
        for missing in 0..1u32 << count {
            let request = judge(&inbox(BATCH, count, |index| missing >> index & 1 == 0))?;
            if request.len() / LINE != shortest[&missing] {
                return Err(format!("{} lines for the set {missing:b}, not {}", request.len() / LINE, shortest[&missing]));
            }
            compared += 1;
        }
    }
    Ok(compared)
}

pub fn all() -> Compared {
    let mut primary = Primary::of_length(&mut Random::new(1), COUNT as usize)?;
    let mut shortest = BTreeMap::new();
    let lists = lists(0);
    for spans in &lists {
        let lines = spans.len().max(1);
        let least = shortest.entry(set(spans)).or_insert(lines);
        *least = lines.min(*least);
        let asked = spans.iter().flat_map(|&(first, last)| first..=last).collect();
        primary.send(BATCH, &request(spans), &asked, 0, COUNT as usize * LINE)?;
    }
    Ok(lists.len() as u64 + asked(&shortest)?)
}
