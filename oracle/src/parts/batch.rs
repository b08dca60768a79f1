//! Batches of edits: beside the original's edits one by one and beside single calls on a copy of the block, with room enough,
//! exactly enough and one node fewer; and everything that refuses a batch.

mod exhaustive;
mod met;
mod refusals;
mod singles;

use super::{Compared, Effort};
use crate::random::Random;
use met::Met;
use std::cell::RefCell;

type Case = fn(&mut Random, &mut Met) -> Compared;

const CASES: [(&str, u64, Case); 4] = [
    ("beside single calls", 4000, singles::beside),
    ("large batches", 6, singles::large),
    ("failing checks", 500, refusals::every_pair),
    ("lengths", 2, refusals::every_length),
];

pub fn all(effort: Effort) -> Compared {
    let met = RefCell::new(Met::default());
    let mut compared = exhaustive::all()?;
    for (name, usual, case) in CASES {
        let told = effort.each(usual, |random| case(random, &mut met.borrow_mut()));
        compared += told.map_err(|what| format!("{name}, {what}"))?;
    }
    met.borrow().complete()?;
    Ok(compared)
}
