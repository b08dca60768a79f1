//! Both questions on sound blocks made by hand, at every bound that may matter.

use super::super::{Compared, Effort};
use super::block::{entries, Made, SHAPES, VALUES};
use super::calls::Question;
use super::compare;
use super::reading::{check, entries as read};
use crate::random::Random;
use std::collections::BTreeSet;

/// The keys, their neighbours, and both ends of what a word can hold.
fn bounds(made: &Made) -> Vec<u32> {
    let keys = made.versions.iter().flatten().map(|&(key, _)| key);
    let near = keys.flat_map(|key| [key.saturating_sub(1), key, key.saturating_add(1)]);
    near.chain([0, u32::MAX]).collect::<BTreeSet<u32>>().into_iter().collect()
}

/// The block reads as it was made: sound, and with the entries that went in.
fn as_made(made: &Made) -> Result<(), String> {
    let same = |version: u32| read(&made.words, version) == made.versions[version as usize];
    if check(&made.words) == 0 && (0..16).all(same) {
        Ok(())
    } else {
        Err("a block made by hand does not read as it was made".into())
    }
}

/// The full versions and one empty one.
fn unlike(made: &Made) -> Vec<u32> {
    let empty = |version: &u32| made.versions[*version as usize].is_empty();
    (0..16).filter(|version| !empty(version)).chain((0..16).find(empty)).collect()
}

/// All versions, then all pairs of bounds where those are at most forty, else pairs drawn.
fn questions(random: &mut Random, made: &Made, pairs: usize) -> Vec<Question> {
    let (bounds, versions) = (bounds(made), unlike(made));
    let mut questions: Vec<Question> = (0..16).map(|version| Question { version, ends: None }).collect();
    if bounds.len() > 40 {
        questions.extend((0..pairs).map(|_| {
            let ends = Some((random.pick(&bounds), random.pick(&bounds)));
            Question { version: random.pick(&versions), ends }
        }));
        return questions;
    }
    for (&first, &last) in bounds.iter().flat_map(|first| bounds.iter().map(move |last| (first, last))) {
        questions.extend(versions.iter().map(|&version| Question { version, ends: Some((first, last)) }));
    }
    questions
}

fn ask(random: &mut Random, made: &Made, pairs: usize) -> Compared {
    as_made(made)?;
    let questions = questions(random, made, pairs);
    let mut block = made.words.clone();
    for question in &questions {
        compare(&mut block, &made.words, *question, 0, &made.versions[question.version as usize])?;
    }
    Ok(questions.len() as u64)
}

/// Up to twenty entries.
pub fn small(effort: Effort) -> Compared {
    effort.each(400, |random| {
        let (n, shape, values) = (32 * (1 + random.below(3)), random.pick(&SHAPES), random.pick(&VALUES));
        let count = random.below(20);
        let entries = entries(random, count, values);
        let made = if count >= 2 && random.once_in(2) {
            Made::shared(random, n, shape, &entries)
        } else {
            Made::single(random, n, shape, &entries)
        };
        ask(random, &made, 5000)
    })
}

/// A full block of 4,096 nodes in every shape and with all kinds of values, then one whose versions share.
pub fn large(effort: Effort) -> Compared {
    effort.each(1, |random| {
        let mut compared = 0;
        for (shape, values) in SHAPES.into_iter().flat_map(|shape| VALUES.map(|values| (shape, values))) {
            let whole = entries(random, 4096, values);
            let made = Made::single(random, 4096, shape, &whole);
            compared += ask(random, &made, 150)?;
            let count = 2 + random.below(4090);
            let made = Made::shared(random, 4096, shape, &whole[..count]);
            compared += ask(random, &made, 150)?;
        }
        Ok(compared)
    })
}
