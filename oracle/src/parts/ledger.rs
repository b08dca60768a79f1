//! The ledger beside a plain one: random histories, and calls in which several checks fail at once.

pub mod drawn;
pub mod history;
pub mod met;
pub mod pairs;
pub mod step;

use super::{Compared, Effort};
use crate::random::Random;
use met::Met;
use std::cell::RefCell;

type Case = fn(&mut Random, &mut Met) -> Compared;

const CASES: [(&str, u64, Case); 3] =
    [("small histories", 4900, history::small), ("large histories", 50, history::large), ("failing checks", 4000, pairs::round)];

pub fn all(effort: Effort) -> Compared {
    let met = RefCell::new(Met::default());
    let mut compared = 0;
    for (name, usual, case) in CASES {
        let told = effort.each(usual, |random| case(random, &mut met.borrow_mut()));
        compared += told.map_err(|what| format!("{name}, {what}"))?;
    }
    met.borrow().complete()?;
    Ok(compared)
}
