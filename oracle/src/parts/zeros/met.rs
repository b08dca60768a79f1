//! What must have been met of zeros by the end.

use std::collections::BTreeSet;

#[derive(Default)]
pub struct Met(BTreeSet<String>);

const ALL: [&str; 26] = [
    "13 for a new key",
    "13 for a known key",
    "13 for a key that holds 0",
    "lookup finds 0",
    "remove takes 0",
    "insert over 0",
    "copy carries 0",
    "union 0 carries 0",
    "union 1 carries 0",
    "union 2 carries 0",
    "union 3 carries 0",
    "union 4 carries 0",
    "difference 0 carries 0",
    "difference 1 carries 0",
    "difference 2 carries 0",
    "difference 3 carries 0",
    "listing has 0 at the left",
    "listing has 0 at the right",
    "frames put 0",
    "13 for the first line of a batch",
    "13 for a line not heard",
    "13 for a line heard",
    "never complete",
    "complete where A alone holds 0",
    "complete where both hold 0",
    "complete without 0",
];

impl Met {
    pub fn when(&mut self, met: bool, what: impl Into<String>) {
        if met {
            self.0.insert(what.into());
        }
    }

    pub fn complete(&self) -> Result<(), String> {
        match ALL.iter().find(|&&what| !self.0.contains(what)) {
            None => Ok(()),
            Some(what) => Err(format!("never met: {what}")),
        }
    }
}
