//! Minutes held, from the text of the request alone: the sum of a version's values, all of them or from one key to another.
//! Blocks are made by hand, and the expected answers are plain sums over the entries that they were made from.

mod block;
mod bounds;
mod calls;
mod changes;
mod damage;
mod edits;
mod reading;
mod refusals;

use super::{Compared, Effort};
use block::Entry;
use calls::Question;

/// One question against the number and the entries expected: a refusal gives no minutes, and no word of the block changes.
fn compare(block: &mut [u32], kept: &[u32], question: Question, number: u32, entries: &[Entry]) -> Result<(), String> {
    let expected = if number == 0 { reading::minutes(entries, question.ends) } else { 0 };
    let (got, told) = calls::held(block, question);
    if (got, told as u128) != (number, expected) {
        return Err(format!("{question:?}: {got} and {told} minutes, not {number} and {expected}; {}", drawn(kept)));
    }
    if block != kept {
        return Err(format!("{question:?} changed the block; {}", drawn(kept)));
    }
    Ok(())
}

/// A block as text, where it is short enough to read.
fn drawn(words: &[u32]) -> String {
    format!("{} words: {:?}", words.len(), &words[..words.len().min(600)])
}

pub fn all(effort: Effort) -> Compared {
    let parts = [bounds::small, bounds::large, refusals::ordered, damage::small, damage::large, edits::small, edits::large];
    parts.iter().try_fold(0, |compared, part| Ok(compared + part(effort)?))
}
