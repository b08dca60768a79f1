//! Zero minutes, from the text of the request alone: an insert of 0 and a frame that puts 0 are refused; a block that holds
//! zeros already is sound, and what is made of it carries them.

mod carried;
mod inserts;
mod met;
mod sent;

use super::sums::Map;
use super::{Compared, Effort};
use crate::random::Random;
use met::Met;
use std::cell::RefCell;

/// A map of up to so many keys below a bound, of which many hold 0.
fn drawn(random: &mut Random, most: usize, bound: usize) -> Map {
    (0..random.below(most + 1)).map(|_| (random.below(bound) as u32, random.pick(&[0, 0, 1, 2, 7]))).collect()
}

type Case = fn(&mut Random, &mut Met) -> Compared;

const CASES: [(&str, u64, Case); 3] =
    [("inserts", 600, inserts::every_pair), ("zeros carried", 1500, carried::every_call), ("zeros sent", 1500, sent::batch)];

pub fn all(effort: Effort) -> Compared {
    let met = RefCell::new(Met::default());
    let mut compared = 0;
    for (name, usual, case) in CASES {
        let told = effort.each(usual, |random| case(random, &mut met.borrow_mut()));
        compared += told.map_err(|what| format!("{name}, {what}"))?;
    }
    met.borrow().complete()?;
    Ok(compared)
}
