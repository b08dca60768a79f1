//! What must have been met of the question by the end.

use std::collections::BTreeSet;

#[derive(Default)]
pub struct Met(BTreeSet<&'static str>);

const ALL: [&str; 25] = [
    "yes: one tree",
    "yes: both empty",
    "yes: apart, nodes shared",
    "yes: apart, no node shared",
    "no: a put of a new key",
    "no: a put of another value",
    "no: the first row is the put",
    "no: a row between others is the first put",
    "no: the last row is the only put",
    "no: sizes, after a walk",
    "no: sizes, nothing to walk",
    "no: a put after a key that A alone has",
    "no: a put where the walk back is too deep",
    "no: a put before the walk is too deep",
    "no: a put in a later row before the walk is too deep",
    "no: sizes where the walk back is too deep",
    "no: sizes where B is empty and the walk back is too deep",
    "6: the put comes later",
    "6: the put comes later, rows came before",
    "6: the sizes differ and there is no put",
    "6: a key that A alone has was passed",
    "6: the same entries",
    "1",
    "2",
    "3",
];

impl Met {
    pub fn when(&mut self, met: bool, what: &'static str) {
        if met {
            assert!(ALL.contains(&what), "{what} is not asked for");
            self.0.insert(what);
        }
    }

    pub fn complete(&self) -> Result<(), String> {
        let never: Vec<&str> = ALL.into_iter().filter(|what| !self.0.contains(what)).collect();
        if never.is_empty() {
            Ok(())
        } else {
            Err(format!("never met: {}", never.join("; ")))
        }
    }
}
