//! What must have been met of batches by the end.

use std::collections::BTreeSet;

#[derive(Default)]
pub struct Met(BTreeSet<&'static str>);

const ALL: [&str; 16] = [
    "done where the single calls are",
    "done where a single call finds no room",
    "refused for room where the single calls pass",
    "refused for room where a single call is",
    "the same key again",
    "a key put and removed",
    "a remove of an absent key",
    "into another version",
    "no record",
    "512 records",
    "513 records",
    "16 for a part of a record",
    "16 for a kind",
    "16 for a kind after a put of 0",
    "16 for a kind before a put of 0",
    "16 for a long slice that puts 0",
];

impl Met {
    pub fn when(&mut self, met: bool, what: &'static str) {
        if met {
            self.0.insert(what);
        }
    }

    pub fn complete(&self) -> Result<(), String> {
        match ALL.iter().find(|&&what| !self.0.contains(what)) {
            None => Ok(()),
            Some(what) => Err(format!("never met: {what}")),
        }
    }
}
