//! Versions restored from sorted listings: trees worked out by hand, every length, every fault at every line and byte, several
//! faults and failing checks at once, exact room, and what becomes of nodes that other versions share.

mod asked;
mod beside;
mod bytes;
mod faults;
mod lengths;
mod met;
mod planted;
mod refusals;
mod worked;

use super::{Compared, Effort};
use crate::random::Random;
use met::Met;
use std::cell::RefCell;

type Case = fn(&mut Random, &mut Met) -> Compared;

const CASES: [(&str, u64, Case); 11] = [
    ("worked trees", 1, worked::all),
    ("every length", 4, lengths::every),
    ("large texts", 1, lengths::large),
    ("each byte", 3, bytes::each),
    ("each fault at each line", 60, faults::each_line),
    ("several faults", 6000, faults::several),
    ("failing checks", 150, refusals::every_pair),
    ("damaged blocks", 150, refusals::damaged),
    ("exact room", 1200, beside::room),
    ("versions beside", 1200, beside::shared),
    ("over long chains", 1, beside::chains),
];

pub fn all(effort: Effort) -> Compared {
    let met = RefCell::new(Met::default());
    let mut compared = 0;
    for (name, usual, case) in CASES {
        let told = effort.each(usual, |random| case(random, &mut met.borrow_mut()));
        compared += told.map_err(|what| format!("{name}, {what}"))?;
    }
    met.borrow().complete()?;
    Ok(compared)
}
