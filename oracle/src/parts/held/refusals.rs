//! Refusals and their order: length and N, then soundness, then the version; the bounds never matter to them.

use super::super::{Compared, Effort};
use super::block::{entries, length, Made, SHAPES, VALUES};
use super::calls::Question;
use super::changes::{hurt, Hurt};
use super::compare;
use super::reading::{answer, check, entries as read};
use crate::random::Random;

const VERSIONS: [u32; 11] = [0, 7, 15, 16, 17, 31, 255, 256, 65_536, 1 << 31, u32::MAX];
const ENDS: [Option<(u32, u32)>; 5] = [None, Some((0, u32::MAX)), Some((3, 9)), Some((9, 3)), Some((u32::MAX, 0))];

/// Lengths that may be taken for right: the neighbours, the ones with six and seven words a node, and those of the next N.
fn lengths(n: usize) -> [usize; 12] {
    let head = 17 + n / 32;
    let whole = length(n);
    [whole, whole - 1, whole + 1, whole - 8, whole + 8, head + 6 * n, head + 7 * n, length(n - 32), length(n + 32), head, 1, 0]
}

fn numbers(n: usize) -> [u32; 13] {
    let n = n as u32;
    [n, n - 1, n + 1, n - 32, n + 32, 2 * n, 0, 16, 31, 33, 4128, 1 << 31, u32::MAX]
}

/// Every version and pair of ends on these words, whatever they are.
fn every(block: &mut [u32]) -> Compared {
    let (kept, checked) = (block.to_vec(), check(block));
    for version in VERSIONS {
        let number = answer(checked, version);
        let entries = if number == 0 { read(&kept, version) } else { vec![] };
        for ends in ENDS {
            compare(block, &kept, Question { version, ends }, number, &entries)?;
        }
    }
    Ok((VERSIONS.len() * ENDS.len()) as u64)
}

fn lengths_and_numbers(words: &[u32]) -> Compared {
    let n = words[0] as usize;
    let mut compared = 0;
    for length in lengths(n) {
        let mut block = words.to_vec();
        block.resize(length, 0);
        for number in numbers(n) {
            block.iter_mut().take(1).for_each(|word| *word = number);
            compared += every(&mut block)?;
        }
    }
    Ok(compared)
}

/// One word of the head or of a node, changed to what may be believed.
fn change(random: &mut Random, words: &mut [u32]) {
    let head = 17 + words[0] as usize / 32;
    let at = if random.once_in(3) { 1 + random.below(head - 1) } else { 1 + random.below(words.len() - 1) };
    let drawn = [words[at].wrapping_add(1), words[at].wrapping_sub(1), words[at] ^ 1 << random.below(32), random.word() % 40, 0];
    words[at] = random.pick(&drawn);
}

pub fn ordered(effort: Effort) -> Compared {
    effort.each(24, |random| {
        let (n, shape, values) = (32 * (1 + random.below(3)), random.pick(&SHAPES), random.pick(&VALUES));
        let count = 2 + random.below(20);
        let entries = entries(random, count, values);
        let made = Made::shared(random, n, shape, &entries);
        let mut damaged = made.words.clone();
        hurt(random, &mut damaged, Hurt::High);
        let mut compared = lengths_and_numbers(&made.words)? + lengths_and_numbers(&damaged)?;
        for _ in 0..40 {
            let mut block = made.words.clone();
            change(random, &mut block);
            compared += every(&mut block)?;
        }
        Ok(compared)
    })
}
