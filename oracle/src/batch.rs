//! Batches of edits, from document 02 (#104): three words a record, kind, key and value.

use crate::rules::{self, Supply, Tree};
use crate::walk::Change;

pub const EDIT: u32 = 16;

/// The records that a batch may have at the most.
pub const MOST: usize = 512;

/// The edits in their order; none where the words are no batch. A remove's value is not looked at.
pub fn records(words: &[u32]) -> Option<Vec<Change>> {
    if words.len() % 3 != 0 || words.len() / 3 > MOST {
        return None;
    }
    let record = |record: &[u32]| match *record {
        [1, key, value] => Some(Change::Put(key, value)),
        [2, key, _] => Some(Change::Remove(key)),
        _ => None,
    };
    words.chunks(3).map(record).collect()
}

/// One edit after another. They draw on one supply, so that what one of them has made goes back when a later one takes it apart,
/// and what stood at the entry of the batch stays.
pub fn run(supply: &mut Supply, tree: &Tree, edits: &[Change]) -> Tree {
    edits.iter().fold(tree.clone(), |tree, edit| match *edit {
        Change::Put(key, value) => rules::insert(supply, &tree, key, value),
        Change::Remove(key) => rules::remove(supply, &tree, key),
    })
}
