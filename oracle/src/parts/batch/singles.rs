//! A batch beside the single calls that it stands for: the same entries and shapes where both have room, and often not the same
//! room. Every word, the original's shapes and its sharing are compared at each step.

use super::met::Met;
use crate::batch::{records, MOST};
use crate::call::Call;
use crate::exports;
use crate::history::{same_words, Keys, Mix, Trio};
use crate::original::alike;
use crate::parts::room::both;
use crate::parts::uneven;
use crate::parts::Compared;
use crate::plain::{makes, NO_ROOM};
use crate::random::Random;
use crate::rules::lookup;
use crate::table::Table;
use crate::walk::Change;
use std::collections::BTreeSet;

/// Drawn records, at most so many.
fn words(random: &mut Random, mix: Mix, most: usize) -> Vec<u32> {
    let Call::Batch { mut edits, .. } = mix.batch(random, 0, 0) else { unreachable!("a batch") };
    edits.truncate(3 * most);
    edits
}

/// The calls that a batch stands for; none at all is a copy.
fn singles(dest: u32, source: u32, edits: &[Change]) -> Vec<Call> {
    let call = |(at, edit): (usize, &Change)| {
        let source = if at == 0 { source } else { dest };
        match *edit {
            Change::Put(key, value) => Call::Insert { dest, source, key, value },
            Change::Remove(key) => Call::Remove { dest, source, key },
        }
    };
    match edits.len() {
        0 => vec![Call::Copy { dest, source }],
        _ => edits.iter().enumerate().map(call).collect(),
    }
}

/// With room enough for both: the block of the single calls has the shapes and the sharing of the batch's maps.
fn roomy(table: &Table, batch: &Call, singles: &[Call]) -> Result<(), String> {
    let table = Table { n: table.n + 256, ..table.clone() };
    let (mut whole, mut steps) = (Trio::of(table.clone()), Trio::of(table));
    let mut numbers = vec![whole.step(batch)?.number];
    for call in singles {
        numbers.push(steps.step(call)?.number);
    }
    if numbers.iter().any(|&number| number != 0) {
        return Err(format!("{batch:?} and its single calls answer {numbers:?} where there is room enough"));
    }
    alike(&steps.block, &whole.maps).map(drop).map_err(|what| format!("{batch:?} and its single calls: {what}"))
}

/// The batch with other values in its removes comes to the same words.
fn values_of_removes(random: &mut Random, table: &Table, batch: &Call) -> Result<(), String> {
    let Call::Batch { dest, source, edits } = batch else { unreachable!("a batch") };
    let mut others = edits.clone();
    others.chunks_mut(3).filter(|record| record[0] == 2).for_each(|record| record[2] = random.pick(&[0, 1, u32::MAX]));
    let (mut block, mut other) = (table.words(), table.words());
    let numbers =
        [exports::batch(&mut block, *dest, *source, &mut edits.clone()), exports::batch(&mut other, *dest, *source, &mut others)];
    if numbers[0] != numbers[1] {
        return Err(format!("{batch:?} answers {numbers:?} with other values in its removes"));
    }
    same_words("block", &block, &other)
}

/// The single calls on a copy of the block, as far as they find room.
fn pass(table: &Table, singles: &[Call]) -> bool {
    let mut block = table.words();
    singles.iter().all(|call| exports::run(&mut block, &mut [], call).number == 0)
}

fn note(table: &Table, edits: &[Change], dest: u32, source: u32, met: &mut Met) {
    let key = |edit: &Change| match *edit {
        Change::Put(key, _) | Change::Remove(key) => key,
    };
    let held = |key: u32| lookup(&table.versions[source as usize], key).is_some();
    let keys: BTreeSet<u32> = edits.iter().map(key).collect();
    let then = |pair: &[Change]| matches!(pair, [Change::Put(put, _), Change::Remove(removed)] if put == removed);
    met.when(keys.len() < edits.len(), "the same key again");
    met.when(edits.windows(2).any(then), "a key put and removed");
    met.when(edits.iter().take(1).any(|edit| matches!(edit, Change::Remove(key) if !held(*key))), "a remove of an absent key");
    met.when(dest != source, "into another version");
    met.when(edits.is_empty(), "no record");
}

/// A drawn batch on a drawn table: tight, roomy, with exactly enough room and with one node fewer.
pub fn beside(random: &mut Random, met: &mut Met) -> Compared {
    let (n, bound) = (32 * (1 + random.below(2)), 4 + random.below(30));
    let table = uneven::table(random, n, 3, bound);
    let mix = Mix { versions: 4, keys: Keys::Below(bound), illegal: usize::MAX, large: 20 };
    let (dest, source) = (random.below(4) as u32, random.below(4) as u32);
    let words = words(random, mix, 20);
    let (edits, batch) = (records(&words).expect("a legal batch"), Call::Batch { dest, source, edits: words });
    let singles = singles(dest, source, &edits);
    let number = Trio::of(table.clone()).step(&batch)?.number;
    let passing = pass(&table, &singles);
    met.when(number == 0 && passing, "done where the single calls are");
    met.when(number == 0 && !passing, "done where a single call finds no room");
    met.when(number == NO_ROOM && passing, "refused for room where the single calls pass");
    met.when(number == NO_ROOM && !passing, "refused for room where a single call is");
    note(&table, &edits, dest, source, met);
    roomy(&table, &batch, &singles)?;
    values_of_removes(random, &table, &batch)?;
    let larger = Table { n: n + 256, ..table };
    let room = makes(&larger, &batch);
    let exact = if room > 0 { both(random, &larger, &batch, room)? } else { 0 };
    Ok(3 + exact)
}

/// One and 511 records, as many as there may be, and one more, on hundreds of entries.
pub fn large(random: &mut Random, met: &mut Met) -> Compared {
    let n = random.pick(&[2016, 4096]);
    let mix = Mix { versions: 2, keys: random.pick(&[Keys::Any, Keys::Below(900)]), illegal: usize::MAX, large: 1000 };
    let mut trio = Trio::fresh(n);
    for count in [1, 511, MOST, MOST + 1, 0, MOST] {
        let mut edits = vec![];
        while edits.len() < 3 * count {
            edits.extend(words(random, mix, count - edits.len() / 3));
        }
        let number = trio.step(&Call::Batch { dest: random.below(2) as u32, source: 0, edits })?.number;
        met.when(count == MOST && number == 0, "512 records");
        met.when(count == MOST + 1 && number == 16, "513 records");
    }
    Ok(6)
}
