//! Every history of four calls over two versions and three keys. The original starts each call from nodes that nothing else
//! holds, so that it edits in place wherever it can.

use super::{Compared, Effort};
use crate::call::Call;
use crate::history::Trio;

const LENGTH: usize = 4;
const SIDES: [(u32, u32); 4] = [(0, 0), (0, 1), (1, 0), (1, 1)];

/// The calls at a place in the history. Values depend on the place, so that equal and unequal ones occur.
fn calls(place: usize) -> Vec<Call> {
    let mut calls = vec![];
    for (dest, source) in SIDES {
        for key in [1, 2, 3] {
            calls.push(Call::Insert { dest, source, key, value: 10 * key + place as u32 % 2 });
            calls.push(Call::Remove { dest, source, key });
        }
    }
    for (left, right) in [(0, 1), (1, 0)] {
        calls.push(Call::Copy { dest: left, source: right });
        for dest in [0, 1] {
            calls.push(Call::Union { dest, left, right, rule: 4 });
            calls.push(Call::Difference { dest, left, right, rule: 1, cancel: 1 });
            calls.push(Call::Difference { dest, left, right, rule: 3, cancel: 0 });
        }
    }
    calls.push(Call::Clear { version: 0 });
    calls
}

pub fn all(_: Effort) -> Compared {
    deeper(&Trio::fresh(32), 0)
}

fn deeper(before: &Trio, place: usize) -> Compared {
    if place == LENGTH {
        return Ok(0);
    }
    let mut compared = 0;
    for call in calls(place) {
        let mut trio = Trio::of(before.table.clone());
        trio.step(&call).map_err(|what| format!("after {} calls: {what}", place))?;
        compared += 1 + deeper(&trio, place + 1)?;
    }
    Ok(compared)
}
