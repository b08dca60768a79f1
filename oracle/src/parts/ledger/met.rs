//! What a comparison has met: without all of it, it compares less than it says.

use crate::ledger::plain::{Account, Refusal};
use crate::ledger::Op;
use std::collections::BTreeMap;

/// An operation, its number, the table's number beside it, and the total that would not fit.
type Outcome = (&'static str, u32, u32, &'static str);

#[derive(Default)]
pub struct Met {
    outcomes: BTreeMap<Outcome, u64>,
    /// Of an operation the check that decided, and one after it that failed too.
    pairs: BTreeMap<(&'static str, u32, u32), u64>,
    /// Other things of note.
    notes: BTreeMap<&'static str, u64>,
}

/// What each operation can answer, the table's number and the total with it.
const OUTCOMES: [(&str, &[(u32, u32, &str)]); 6] = [
    ("fresh", &[(0, 0, ""), (21, 0, "")]),
    ("top-up", &[(0, 0, ""), (21, 0, ""), (22, 0, ""), (28, 0, "topped-up"), (28, 0, "free"), (28, 0, "both")]),
    ("account", &[(0, 0, ""), (21, 0, ""), (22, 0, "")]),
    (
        "reserve",
        &[
            (0, 0, ""),
            (21, 0, ""),
            (22, 0, ""),
            (23, 1, ""),
            (23, 2, ""),
            (23, 3, ""),
            (24, 0, ""),
            (26, 0, ""),
            (29, 5, ""),
            (29, 13, ""),
        ],
    ),
    (
        "settle",
        &[
            (0, 0, ""),
            (21, 0, ""),
            (22, 0, ""),
            (23, 1, ""),
            (23, 2, ""),
            (23, 3, ""),
            (25, 0, ""),
            (27, 0, ""),
            (28, 0, "spent"),
            (28, 0, "free"),
            (28, 0, "both"),
            (29, 5, ""),
        ],
    ),
    (
        "release",
        &[(0, 0, ""), (21, 0, ""), (22, 0, ""), (23, 1, ""), (23, 2, ""), (23, 3, ""), (25, 0, ""), (28, 0, "free"), (29, 5, "")],
    ),
];

/// The checks of each operation in the document's order.
const CHECKS: [(&str, &[u32]); 5] = [
    ("top-up", &[21, 22, 28]),
    ("account", &[21, 22]),
    ("reserve", &[21, 22, 23, 24, 26, 29]),
    ("settle", &[21, 22, 23, 25, 27, 28, 29]),
    ("release", &[21, 22, 23, 25, 28, 29]),
];

/// What no call can have: an unknown account has no totals, an absent call takes no room to remove, and its release adds nothing.
const NEVER: [(&str, u32, u32); 6] =
    [("top-up", 22, 28), ("settle", 22, 28), ("release", 22, 28), ("settle", 25, 29), ("release", 25, 29), ("release", 25, 28)];

const NOTES: [&str; 8] = [
    "number used again",
    "closed with 0 minutes",
    "promise at 2^64 - 1",
    "promise where room was short",
    "shape before version",
    "damage before version",
    "sound after a change",
    "above 200 open calls",
];

impl Met {
    pub fn outcome(&mut self, op: &Op, told: &Result<Account, Refusal>) {
        let (number, table, total) = told.map_or_else(|no| (no.number, no.table, no.total), |_| (0, 0, ""));
        *self.outcomes.entry((op.name(), number, table, total)).or_default() += 1;
    }

    /// The numbers of the failing checks, least first.
    pub fn failing(&mut self, op: &Op, numbers: &[u32]) {
        for &later in numbers.iter().skip(1) {
            *self.pairs.entry((op.name(), numbers[0], later)).or_default() += 1;
        }
    }

    pub fn note(&mut self, what: &'static str) {
        *self.notes.entry(what).or_default() += 1;
    }

    pub fn complete(&self) -> Result<(), String> {
        let outcome = all_outcomes().find(|outcome| !self.outcomes.contains_key(outcome));
        let pair = all_pairs().find(|pair| NEVER.contains(pair) == self.pairs.contains_key(pair));
        let note = NOTES.iter().find(|note| !self.notes.contains_key(*note));
        match (outcome, pair, note) {
            (Some(outcome), ..) => Err(format!("never met: {outcome:?}")),
            (_, Some(pair), _) => Err(format!("checks failing together, met or not met: {pair:?}")),
            (.., Some(note)) => Err(format!("never met: {note}")),
            _ => Ok(()),
        }
    }
}

fn all_outcomes() -> impl Iterator<Item = Outcome> {
    let whole = |(name, rest): (&'static str, &'static [(u32, u32, &'static str)])| {
        rest.iter().map(move |&(number, table, total)| (name, number, table, total))
    };
    OUTCOMES.into_iter().flat_map(whole)
}

fn all_pairs() -> impl Iterator<Item = (&'static str, u32, u32)> {
    let later = |numbers: &'static [u32], first: u32| numbers.iter().copied().filter(move |&number| number > first);
    let of_one = move |(name, numbers): (&'static str, &'static [u32])| {
        numbers.iter().flat_map(move |&first| later(numbers, first).map(move |second| (name, first, second)))
    };
    CHECKS.into_iter().flat_map(of_one)
}
