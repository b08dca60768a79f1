//! Every list of three calls over two keys and a batch of two lines, on both engines.

use super::drawn::WHOLE;
use super::met::Met;
use super::pair::Pair;
use crate::frame::Frame;
use crate::kiosk::Call;
use crate::parts::Compared;
use crate::random::Random;

const LENGTH: usize = 3;
const BATCH: u32 = 7;

/// The lines: a put, a remove, the first index with another content, another batch, another count, a put of 0, "nothing".
fn lines() -> [Call; 7] {
    let frame = |batch, index, count, kind, key, value| Frame { batch, index, count, kind, key, value };
    let frames = [
        frame(BATCH, 0, 2, 1, 1, 5),
        frame(BATCH, 1, 2, 2, 1, 0),
        frame(BATCH, 0, 2, 1, 2, 6),
        frame(BATCH + 1, 0, 2, 1, 1, 5),
        frame(BATCH, 0, 3, 1, 2, 5),
        frame(BATCH, 1, 2, 1, 2, 0),
        frame(BATCH, 0, 1, 0, 0, 0),
    ];
    frames.map(|frame| Call::Receive { line: frame.line() })
}

/// The calls at a place in the list. Values depend on the place, so that an old value tells where it was put.
fn calls(place: usize) -> Vec<Call> {
    let value = 10 + place as u32;
    let of_key = |key| [Call::Lookup { key }, Call::Insert { key, value }, Call::Remove { key }];
    let mut calls = [of_key(1), of_key(2)].concat();
    calls.extend([Call::Insert { key: 1, value: 0 }, Call::List { start: 1, room: 7 }, Call::Missing, WHOLE]);
    calls.extend(lines());
    calls
}

pub fn all(_: &mut Random, met: &mut Met) -> Compared {
    deeper(&Pair::fresh(0, BATCH)?, 0, met)
}

fn deeper(before: &Pair, place: usize, met: &mut Met) -> Compared {
    if place == LENGTH {
        return Ok(0);
    }
    let mut compared = 0;
    for call in calls(place) {
        let mut pair = before.clone();
        pair.step(&call, met).map_err(|what| format!("after {place} calls: {what}"))?;
        compared += 1 + deeper(&pair, place + 1, met)?;
    }
    Ok(compared)
}
