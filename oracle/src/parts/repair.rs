//! Lost lines asked for and sent again: what an inbox asks beside its runs counted another way and beside every list of lines on
//! small counts; requests made by hand and broken on purpose; links that lose lines both ways until the standby is complete.

mod asks;
mod broken;
mod cost;
mod hand;
mod history;
mod kinds;
mod met;
mod plant;
mod primary;
mod several;
mod small;

use super::{Compared, Effort};
use crate::random::Random;
use met::Met;
use std::cell::RefCell;

type Case = fn(&mut Random, &mut Met) -> Compared;

const CASES: [(&str, u64, Case); 11] = [
    ("what inboxes ask", 3000, asks::drawn),
    ("inboxes that are refused", 3000, asks::refused),
    ("requests made by hand", 1500, hand::drawn),
    ("large deltas", 2, hand::large),
    ("broken requests", 60, broken::each_line),
    ("requests of other batches", 60, broken::other_batch),
    ("each byte of a request", 4, broken::each_byte),
    ("each length of a request", 8, broken::each_length),
    ("failing checks", 200, several::every_pair),
    ("damaged blocks", 300, several::damaged),
    ("request lines at a standby", 300, kinds::refused),
];

pub fn all(effort: Effort) -> Compared {
    let met = RefCell::new(Met::default());
    let mut compared = small::all()?;
    for (name, usual, case) in CASES {
        let told = effort.each(usual, |random| case(random, &mut met.borrow_mut()));
        compared += told.map_err(|what| format!("{name}, {what}"))?;
    }
    let repaired = effort.each(400, |random| history::until_complete(random, &mut met.borrow_mut()));
    compared += repaired.map_err(|what| format!("links, {what}"))?;
    compared += cost::told(effort)?;
    met.borrow().complete()?;
    Ok(compared)
}
