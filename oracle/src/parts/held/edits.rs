//! Both questions after edits by the calls, against sums over the version's listing.

use super::super::{Compared, Effort};
use super::block::{length, Entry, Values};
use super::calls::{self, Question};
use super::compare;
use super::reading::{check, entries as read};
use crate::random::Random;

/// Versions that are edited; the last one of the block stays empty.
const EDITED: usize = 5;
const EMPTY: u32 = 15;

/// Keys from both ends of what a word can hold.
fn key(random: &mut Random, keys: usize) -> u32 {
    let key = random.below(keys) as u32;
    if random.once_in(2) {
        key
    } else {
        u32::MAX - key
    }
}

fn version(random: &mut Random) -> u32 {
    random.below(EDITED) as u32
}

/// Whether a key of both versions has a sum that does not fit a word: then a union by sums is refused.
fn exceeds(block: &[u32], left: u32, right: u32) -> bool {
    let right = read(block, right);
    let beside = |key: u32| right.iter().find(|entry| entry.0 == key).map_or(0, |entry| entry.1);
    read(block, left).iter().any(|&(key, value)| value.checked_add(beside(key)).is_none())
}

/// One random edit, done, or refused for room, for a sum or for a value of 0. Gives its destination.
fn edit(random: &mut Random, block: &mut [u32], keys: usize) -> Result<u32, String> {
    let (dest, left, right) = (version(random), version(random), version(random));
    let (key, value) = (key(random, keys), Values::Mixed.draw(random));
    let source = if random.once_in(3) { left } else { dest };
    let (kind, rule) = (random.below(20), random.below(5) as u32);
    let unfit = (13..=15).contains(&kind) && rule == 4 && exceeds(block, left, right);
    let number = match kind {
        0..=9 => calls::insert(block, dest, source, key, value).0,
        10..=12 => calls::remove(block, dest, source, key),
        13..=15 => calls::union(block, dest, left, right, rule),
        16 | 17 => {
            let rule = random.below(4) as u32;
            calls::difference(block, dest, left, right, rule, if rule == 2 { 0 } else { random.below(2) as u32 })
        }
        18 => calls::copy(block, dest, source),
        _ => calls::clear(block, dest),
    };
    let zero = kind <= 9 && value == 0;
    match number {
        0 | 5 if !unfit && !zero => Ok(dest),
        13 if zero => Ok(dest),
        14 if unfit => Ok(dest),
        _ => Err(format!("an edit of {dest} gives {number}")),
    }
}

/// A bound at or beside a listed key, or anywhere.
fn bound(random: &mut Random, listed: &[Entry]) -> u32 {
    let drawn = random.word();
    if listed.is_empty() || random.once_in(8) {
        return random.pick(&[0, u32::MAX, drawn]);
    }
    let key = random.pick(listed).0;
    random.pick(&[key, key, key.wrapping_add(1), key.wrapping_sub(1)])
}

/// The listing is read once; the whole sum and some parts of it are asked for.
fn weigh(random: &mut Random, block: &mut [u32], version: u32, pairs: usize) -> Compared {
    let listed = calls::list(block, version, EMPTY).map_err(|number| format!("the listing of {version} gives {number}"))?;
    let kept = block.to_vec();
    compare(block, &kept, Question { version, ends: None }, 0, &listed)?;
    for _ in 0..pairs {
        let ends = Some((bound(random, &listed), bound(random, &listed)));
        compare(block, &kept, Question { version, ends }, 0, &listed)?;
    }
    Ok(1 + pairs as u64)
}

/// The block is sound after an edit, and the listing is what its words say.
fn settled(block: &[u32]) -> Result<(), String> {
    let same = |version: u32| calls::list(&mut block.to_vec(), version, EMPTY) == Ok(read(block, version));
    if check(block) == 0 && (0..EDITED as u32).all(same) {
        Ok(())
    } else {
        Err("an edit leaves a block that is not sound, or another listing".into())
    }
}

fn history(random: &mut Random, n: usize, keys: usize, steps: usize) -> Compared {
    let mut block = vec![0; length(n)];
    block[0] = n as u32;
    let mut compared = 0;
    for step in 0..steps {
        let dest = edit(random, &mut block, keys)?;
        compared += weigh(random, &mut block, dest, 6)?;
        if step % 16 == 15 {
            settled(&block)?;
            for version in 0..EDITED as u32 {
                compared += weigh(random, &mut block, version, 2)?;
            }
        }
    }
    Ok(compared)
}

pub fn small(effort: Effort) -> Compared {
    effort.each(500, |random| {
        let (n, keys) = (32 * (1 + random.below(6)), 4 + random.below(40));
        history(random, n, keys, 80)
    })
}

/// Two versions of some hundred entries each, then edits of them and of what they give.
pub fn large(effort: Effort) -> Compared {
    effort.each(2, |random| {
        let mut block = vec![0; length(4096)];
        block[0] = 4096;
        let mut compared = 0;
        for entry in 0..1600 {
            let (key, value) = (key(random, 2000), Values::Mixed.draw(random));
            let (number, _, _) = calls::insert(&mut block, entry % 2, entry % 2, key, value);
            if number != if value == 0 { 13 } else { 0 } {
                return Err(format!("an insert gives {number}"));
            }
            if entry % 8 < 2 {
                compared += weigh(random, &mut block, entry % 2, 1)?;
            }
        }
        for _ in 0..60 {
            let dest = edit(random, &mut block, 2000)?;
            compared += weigh(random, &mut block, dest, 20)?;
        }
        settled(&block)?;
        Ok(compared)
    })
}
