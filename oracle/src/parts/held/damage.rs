//! Changed sums under four calls. A plain reading of the words decides what is still sound; all else is DAMAGED to every call.

use super::super::{Compared, Effort};
use super::block::{entries, Entry, Made, SHAPES, VALUES};
use super::calls::{self, Question};
use super::changes::{hurt, Hurt, HURTS};
use super::reading::{answer, by_size, check, entries as read, height};
use super::{compare, drawn};
use crate::random::Random;
use std::cell::Cell;

/// How many changed blocks were still sound, and how many were not.
#[derive(Default)]
struct Met {
    sound: Cell<u64>,
    damaged: Cell<u64>,
}

impl Met {
    fn count(&self, checked: u32) {
        let met = if checked == 0 { &self.sound } else { &self.damaged };
        met.set(met.get() + 1);
    }

    /// A comparison that only ever meets one of the two says little.
    fn both(&self) -> Result<(), String> {
        if self.sound.get() > 0 && self.damaged.get() > 0 {
            Ok(())
        } else {
            Err("the changed sums were all sound, or all damaged".into())
        }
    }
}

fn size(block: &mut [u32], kept: &[u32], version: u32, number: u32, entries: &[Entry]) -> Result<(), String> {
    let expected = (number, entries.len() as u32);
    let got = calls::size(block, version);
    if got != expected || block != kept {
        return Err(format!("size of {version}: {got:?}, not {expected:?}; {}", drawn(kept)));
    }
    Ok(())
}

/// Nodes enough for every make that an insert can need: three a level.
fn room(words: &[u32], version: u32) -> bool {
    let free = words[0] as usize - by_size(words).map_or(0, |nodes| nodes.len());
    free >= 3 + 3 * height(words, words[1 + version as usize])
}

/// What the entries are after an insert.
fn put(entries: &[Entry], new: Entry) -> Vec<Entry> {
    let mut after: Vec<Entry> = entries.iter().copied().filter(|&(key, _)| key != new.0).chain([new]).collect();
    after.sort();
    after
}

/// An insert in place: refused it changes no word, done it leaves a sound block with the entries it should have.
fn insert(random: &mut Random, kept: &[u32], version: u32, number: u32, entries: &[Entry]) -> Result<(), String> {
    let mut block = kept.to_vec();
    let (drawn_key, value) = (random.word(), random.word().max(1));
    let key = if entries.is_empty() || random.once_in(2) { drawn_key } else { random.pick(entries).0 };
    let got = calls::insert(&mut block, version, version, key, value);
    let old = entries.iter().find(|entry| entry.0 == key).map_or((0, 0), |entry| (1, entry.1));
    let fine = match (number, got) {
        (0, (5, 0, 0)) => block == kept && !room(kept, version),
        (0, (0, had, value_there)) => {
            (had, value_there) == old && check(&block) == 0 && read(&block, version) == put(entries, (key, value))
        }
        _ => got == (number, 0, 0) && block == kept,
    };
    if fine {
        Ok(())
    } else {
        Err(format!(
            "insert of {key} with {value} in {version}: {got:?}, expected {number}, or its words differ; {}",
            drawn(kept)
        ))
    }
}

/// The four calls on these words.
fn judge(random: &mut Random, block: &mut [u32], kept: &[u32], met: &Met) -> Compared {
    let version = if random.once_in(10) { random.pick(&[16, u32::MAX]) } else { random.below(16) as u32 };
    let checked = check(kept);
    met.count(checked);
    let number = answer(checked, version);
    let entries = if number == 0 { read(kept, version) } else { vec![] };
    let (first, last) = (random.word(), random.word());
    let ends = random.pick(&[(first, last), (0, u32::MAX), (first % 40, last % 40), (last, 0), (0, last)]);
    compare(block, kept, Question { version, ends: None }, number, &entries)?;
    compare(block, kept, Question { version, ends: Some(ends) }, number, &entries)?;
    size(block, kept, version, number, &entries)?;
    insert(random, kept, version, number, &entries)?;
    Ok(4)
}

fn changed(random: &mut Random, made: &Made, hurts: &[Hurt], met: &Met) -> Compared {
    let (mut block, mut compared) = (made.words.clone(), 0);
    for &kind in hurts {
        block.copy_from_slice(&made.words);
        hurt(random, &mut block, kind);
        let kept = block.clone();
        compared += judge(random, &mut block, &kept, met).map_err(|what| format!("{kind:?}: {what}"))?;
    }
    Ok(compared)
}

pub fn small(effort: Effort) -> Compared {
    let met = Met::default();
    let compared = effort.each(1500, |random| {
        let (n, shape, values) = (random.pick(&[32, 32, 64]), random.pick(&SHAPES), random.pick(&VALUES));
        let count = 2 + random.below(14);
        let entries = entries(random, count, values);
        let made =
            if random.once_in(2) { Made::single(random, n, shape, &entries) } else { Made::shared(random, n, shape, &entries) };
        (0..15).try_fold(0, |compared, _| Ok(compared + changed(random, &made, &HURTS, &met)?))
    })?;
    met.both()?;
    Ok(compared)
}

pub fn large(effort: Effort) -> Compared {
    let met = Met::default();
    let compared = effort.each(5, |random| {
        let (shape, values) = (random.pick(&SHAPES), random.pick(&VALUES));
        let entries = entries(random, 4000, values);
        let made = Made::shared(random, 4096, shape, &entries);
        changed(random, &made, &HURTS, &met)
    })?;
    met.both()?;
    Ok(compared)
}
