//! The kiosk and the tree engine on one version, each beside the other, beside a sorted list and beside a plain map: a list
//! worked out by hand, every short list of calls, drawn lists, a full kiosk; and slices and lines on which several checks fail at once.

mod alone;
mod damaged;
mod drawn;
mod full;
mod histories;
mod lengths;
mod met;
mod mirror;
mod pair;
mod several;
mod short;
mod worked;

use super::{Compared, Effort};
use crate::random::Random;
use met::Met;
use std::cell::RefCell;

type Case = fn(&mut Random, &mut Met) -> Compared;

const CASES: [(&str, u64, Case); 9] = [
    ("a worked list of calls", 1, worked::all),
    ("fresh slices", 1, lengths::fresh),
    ("every short list of calls", 1, short::all),
    ("lists of calls", 500, histories::any),
    ("lists of calls where room is short", 250, histories::crowded),
    ("full kiosks", 4, full::every_key),
    ("damaged slices", 6, damaged::every_kind),
    ("changed words", 300, damaged::changed),
    ("failing checks of receive", 300, several::every_pair),
];

pub fn all(effort: Effort) -> Compared {
    let met = RefCell::new(Met::default());
    let mut compared = 0;
    for (name, usual, case) in CASES {
        let told = effort.each(usual, |random| case(random, &mut met.borrow_mut()));
        compared += told.map_err(|what| format!("{name}, {what}"))?;
    }
    met.borrow().complete()?;
    Ok(compared)
}
