//! What must have been met of kiosks by the end.

use crate::call::Reply;
use crate::kiosk::Call;
use std::collections::BTreeSet;

#[derive(Default)]
pub struct Met {
    notes: BTreeSet<&'static str>,
    /// A call and its number, where both engines answer.
    beside: BTreeSet<(&'static str, u32)>,
    /// A call and its number, where the kiosk alone is asked.
    alone: BTreeSet<(&'static str, u32)>,
}

const NOTES: [&str; 20] = [
    "lookup finds",
    "lookup finds nothing",
    "insert of a new key",
    "insert over a value",
    "remove of a key",
    "remove of an absent key",
    "listing from the start",
    "listing from a later index",
    "listing from past the end",
    "listing cut by the output",
    "line heard again",
    "line heard again with another content",
    "complete",
    "missing while the count is unknown",
    "64 entries",
    "an equal key at 64",
    "13 for a new key at 64",
    "a line heard again at 64",
    "a value of 0 found",
    "sound after a change",
];

/// What both engines can answer to each call on sound words; 5 is the kiosk's alone.
const BESIDE: [(&str, &[u32]); 6] = [
    ("lookup", &[0]),
    ("insert", &[0, 13]),
    ("remove", &[0]),
    ("list", &[0]),
    ("receive", &[0, 7, 8, 9, 10, 11, 12, 13]),
    ("missing", &[0]),
];

/// What the kiosk can answer.
const ALONE: [(&str, &[u32]); 5] = [
    ("lookup", &[0, 1, 2]),
    ("insert", &[0, 1, 2, 5, 13]),
    ("remove", &[0, 1, 2]),
    ("list", &[0, 1, 2]),
    ("receive", &[0, 1, 2, 5, 7, 8, 9, 10, 11, 12, 13]),
];

fn name(call: &Call) -> &'static str {
    match call {
        Call::Lookup { .. } => "lookup",
        Call::Insert { .. } => "insert",
        Call::Remove { .. } => "remove",
        Call::List { .. } => "list",
        Call::Receive { .. } => "receive",
        Call::Missing => "missing",
    }
}

fn missed(met: &BTreeSet<(&'static str, u32)>, all: &[(&'static str, &[u32])]) -> Option<(&'static str, u32)> {
    let each = all.iter().flat_map(|&(name, numbers)| numbers.iter().map(move |&number| (name, number)));
    each.into_iter().find(|one| !met.contains(one))
}

impl Met {
    pub fn when(&mut self, met: bool, what: &'static str) {
        if met {
            assert!(NOTES.contains(&what), "{what} is not asked for");
            self.notes.insert(what);
        }
    }

    pub fn beside(&mut self, call: &Call, reply: &Reply) {
        self.beside.insert((name(call), reply.number));
        if reply.number == 0 {
            self.accepted(call, reply.fields);
        }
    }

    pub fn alone(&mut self, call: &Call, number: u32) {
        self.alone.insert((name(call), number));
    }

    fn accepted(&mut self, call: &Call, [x, y]: [u32; 2]) {
        match *call {
            Call::Lookup { .. } => {
                self.when(x == 1, "lookup finds");
                self.when(x == 0, "lookup finds nothing");
            }
            Call::Insert { .. } => self.when(true, if x == 1 { "insert over a value" } else { "insert of a new key" }),
            Call::Remove { .. } => self.when(true, if x == 1 { "remove of a key" } else { "remove of an absent key" }),
            Call::List { start, .. } => {
                self.when(start == 0 && x > 0, "listing from the start");
                self.when(start > 0 && x > 0, "listing from a later index");
                self.when(start >= y && y > 0, "listing from past the end");
                self.when(start < y && x < 4 * (y - start), "listing cut by the output");
            }
            Call::Receive { .. } => {
                self.when(x == 1, "line heard again");
                self.when(x == 0 && y == 0, "complete");
            }
            Call::Missing => self.when(x == u32::MAX, "missing while the count is unknown"),
        }
    }

    pub fn complete(&self) -> Result<(), String> {
        let note = NOTES.into_iter().find(|note| !self.notes.contains(note));
        match (note, missed(&self.beside, &BESIDE), missed(&self.alone, &ALONE)) {
            (Some(note), ..) => Err(format!("never met: {note}")),
            (_, Some(answer), _) => Err(format!("never met of both engines: {answer:?}")),
            (.., Some(answer)) => Err(format!("never met of the kiosk: {answer:?}")),
            _ => Ok(()),
        }
    }
}
