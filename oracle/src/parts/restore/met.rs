//! What must have been met of restores by the end.

use std::collections::BTreeSet;

#[derive(Default)]
pub struct Met {
    notes: BTreeSet<&'static str>,
    /// Where a byte of a line was wrong.
    places: BTreeSet<usize>,
    /// How many bytes a short last piece had.
    shorts: BTreeSet<usize>,
}

const ALL: [&str; 27] = [
    "no lines where entries stood",
    "every node taken",
    "one line more than nodes",
    "the keys 0 and 4,294,967,295",
    "13 on the first line",
    "13 on the last line",
    "18 for an equal key",
    "18 for a smaller key",
    "18 on the last line",
    "17 beside 13 on one line",
    "17 beside 18 on one line",
    "13 beside 18 on one line",
    "all three on one line",
    "17 on a later line than 13",
    "17 on a later line than 18",
    "13 on a later line than 18",
    "a fault where room is short",
    "a fault past line 65,535",
    "5 where the old version's nodes would do",
    "as many lines as free nodes",
    "the old version stays in another",
    "the old version goes whole",
    "of the old version some nodes stay",
    "a long chain goes",
    "a listing put back in another version",
    "13 for a listing that holds 0",
    "damaged and refused",
];

impl Met {
    pub fn when(&mut self, met: bool, what: &'static str) {
        if met {
            assert!(ALL.contains(&what), "{what} is not asked for");
            self.notes.insert(what);
        }
    }

    pub fn place(&mut self, place: usize) {
        self.places.insert(place);
    }

    pub fn short(&mut self, bytes: usize) {
        self.shorts.insert(bytes);
    }

    /// All notes, a wrong byte at each of the 17 places, and short pieces of every length.
    pub fn complete(&self) -> Result<(), String> {
        let never: Vec<&str> = ALL.into_iter().filter(|what| !self.notes.contains(what)).collect();
        if !never.is_empty() {
            Err(format!("never met: {}", never.join("; ")))
        } else if !self.places.iter().copied().eq(0..17) {
            Err(format!("wrong bytes were met at {:?} alone", self.places))
        } else if !self.shorts.iter().copied().eq(1..17) {
            Err(format!("short pieces were met of {:?} bytes alone", self.shorts))
        } else {
            Ok(())
        }
    }
}
