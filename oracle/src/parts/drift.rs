//! Whether two versions hold the same entries: beside the plain walk that stops at the first put, the original's entries, the
//! frames of the delta, and pairs whose answer is known from how they were made.

mod asked;
mod calls;
mod deep;
mod kinds;
mod met;
mod refusals;
mod worked;

use super::{Compared, Effort};
use crate::random::Random;
use met::Met;
use std::cell::RefCell;

type Case = fn(&mut Random, &mut Met) -> Compared;

const CASES: [(&str, u64, Case); 6] = [
    ("worked pairs", 2, worked::all),
    ("versions that calls made", 300, calls::made),
    ("histories", 300, calls::history),
    ("uneven trees", 4000, deep::pairs),
    ("failing checks", 300, refusals::every_pair),
    ("damaged blocks", 1000, refusals::damaged),
];

pub fn all(effort: Effort) -> Compared {
    let met = RefCell::new(Met::default());
    let mut compared = 0;
    for (name, usual, case) in CASES {
        let told = effort.each(usual, |random| case(random, &mut met.borrow_mut()));
        compared += told.map_err(|what| format!("{name}, {what}"))?;
    }
    met.borrow().complete()?;
    Ok(compared)
}
