//! Changes to the sums of a sound block: one word, one node, or many nodes that still agree in some narrower sense.

use super::block::{place, store, stored, word, HIGH, LEFT, LOW, RIGHT, VALUE};
use super::reading::by_size;
use crate::random::Random;

#[derive(Clone, Copy, Debug)]
pub enum Hurt {
    Nothing,
    Low,
    High,
    Whole,
    Exchanged,
    Another,
    Swapped,
    Free,
    Wrapped,
    WrappedTwice,
    Shifted,
    Revalued,
    RevaluedButOne,
    LeftOut,
    Narrow,
    NoCarry,
}

pub const HURTS: [Hurt; 16] = [
    Hurt::Nothing,
    Hurt::Low,
    Hurt::High,
    Hurt::Whole,
    Hurt::Exchanged,
    Hurt::Another,
    Hurt::Swapped,
    Hurt::Free,
    Hurt::Wrapped,
    Hurt::WrappedTwice,
    Hurt::Shifted,
    Hurt::Revalued,
    Hurt::RevaluedButOne,
    Hurt::LeftOut,
    Hurt::Narrow,
    Hurt::NoCarry,
];

/// The stored sums of the children and the own value, as three numbers.
fn parts(words: &[u32], number: u32) -> [u64; 3] {
    let [left, right] = [LEFT, RIGHT].map(|side| match word(words, number, side) {
        0 => 0,
        link => stored(words, link),
    });
    [word(words, number, VALUE) as u64, left, right]
}

/// Gives all nodes but these the sum of their parts, whatever is carried out of 64 bits.
fn repair(words: &mut [u32], nodes: &[u32], but: &[u32]) {
    for &number in nodes.iter().filter(|number| !but.contains(number)) {
        let sum = parts(words, number).into_iter().fold(0, u64::wrapping_add);
        store(words, number, sum);
    }
}

/// A sum close to 2^64, so that a parent's sum carries out of 64 bits.
fn near_the_end(random: &mut Random, words: &[u32], number: u32) -> u64 {
    let (drawn, own) = (random.next() << 16, parts(words, number)[0]);
    let top = 0xffff_ffff_0000_0000;
    random.pick(&[u64::MAX, u64::MAX - 1, u64::MAX - own, own.wrapping_neg(), top, top + own, top | drawn, 1 << 63, drawn])
}

/// Children of one node, one up and one down by as much: the parent is right again in 64 bits.
fn shift(random: &mut Random, words: &mut [u32], nodes: &[u32]) {
    let number = random.pick(nodes);
    let by = random.pick(&[1, 1 << 32, 1 << 63, u64::MAX, 0xffff_ffff_0000_0000]);
    let (left, right) = (word(words, number, LEFT), word(words, number, RIGHT));
    if left != 0 && right != 0 {
        let (up, down) = (stored(words, left).wrapping_add(by), stored(words, right).wrapping_sub(by));
        store(words, left, up);
        store(words, right, down);
    }
}

fn free_node(random: &mut Random, words: &mut [u32], nodes: &[u32]) {
    let free: Vec<u32> = (1..=words[0]).filter(|number| !nodes.contains(number)).collect();
    if !free.is_empty() {
        let drawn = random.next();
        let sum = random.pick(&[1, 1 << 32, 1 << 63, u64::MAX, drawn, 0]);
        store(words, random.pick(&free), sum);
    }
}

fn one_word(random: &mut Random, words: &mut [u32], number: u32, which: usize) {
    let at = place(words[0] as usize, number, which);
    let drawn = random.word();
    words[at] = random.pick(&[words[at].wrapping_add(1), words[at].wrapping_sub(1), words[at] ^ 1 << (drawn % 32), drawn]);
}

/// One part of a node is left out of its sum, and all above it agree.
fn leave_out(random: &mut Random, words: &mut [u32], nodes: &[u32]) {
    let number = random.pick(nodes);
    let mut parts = parts(words, number);
    parts[random.below(3)] = 0;
    store(words, number, parts.iter().sum());
    repair(words, nodes, &[number]);
}

/// Sums that are not kept whole: low words alone, or high words added without what the low words carry.
fn without_carries(words: &mut [u32], nodes: &[u32], highs: bool) {
    for &number in nodes {
        let parts = parts(words, number);
        let low = parts.iter().fold(0, |low: u32, &part| low.wrapping_add(part as u32));
        let high = parts.iter().fold(0, |high: u32, &part| high.wrapping_add((part >> 32) as u32));
        store(words, number, if highs { (high as u64) << 32 | low as u64 } else { low as u64 });
    }
}

fn wrap(random: &mut Random, words: &mut [u32], nodes: &[u32], chosen: &[u32]) {
    for &number in chosen {
        let sum = near_the_end(random, words, number);
        store(words, number, sum);
    }
    repair(words, nodes, chosen);
}

fn revalue(random: &mut Random, words: &mut [u32], nodes: &[u32], but: &[u32]) {
    let drawn = random.word();
    let at = place(words[0] as usize, random.pick(nodes), VALUE);
    words[at] = random.pick(&[0, 1, u32::MAX, drawn]);
    repair(words, nodes, but);
}

/// Two nodes, children of one node where that can be.
fn two(random: &mut Random, words: &[u32], nodes: &[u32]) -> [u32; 2] {
    let pairs = nodes.iter().map(|&number| [word(words, number, LEFT), word(words, number, RIGHT)]);
    let pairs: Vec<[u32; 2]> = pairs.filter(|pair| !pair.contains(&0)).collect();
    if pairs.is_empty() {
        [random.pick(nodes), random.pick(nodes)]
    } else {
        random.pick(&pairs)
    }
}

/// Changes a sound block that has at least one node.
pub fn hurt(random: &mut Random, words: &mut [u32], hurt: Hurt) {
    let nodes = by_size(words).expect("a sound block");
    let (one, other) = (random.pick(&nodes), random.pick(&nodes));
    let (sum, others) = (stored(words, one), stored(words, other));
    match hurt {
        Hurt::Nothing => {}
        Hurt::Low => one_word(random, words, one, LOW),
        Hurt::High => one_word(random, words, one, HIGH),
        Hurt::Whole => {
            let by = random.pick(&[1, u64::MAX, 1 << 32, (1 << 32) - 1, 1 << 63, sum]);
            store(words, one, sum.wrapping_add(by));
        }
        Hurt::Exchanged => store(words, one, sum.rotate_left(32)),
        Hurt::Another => store(words, one, others),
        Hurt::Swapped => {
            store(words, one, others);
            store(words, other, sum);
        }
        Hurt::Free => free_node(random, words, &nodes),
        Hurt::Wrapped => wrap(random, words, &nodes, &[one]),
        Hurt::WrappedTwice => {
            let chosen = two(random, words, &nodes);
            wrap(random, words, &nodes, &chosen);
        }
        Hurt::Shifted => shift(random, words, &nodes),
        Hurt::Revalued => revalue(random, words, &nodes, &[]),
        Hurt::RevaluedButOne => revalue(random, words, &nodes, &[one]),
        Hurt::LeftOut => leave_out(random, words, &nodes),
        Hurt::Narrow => without_carries(words, &nodes, false),
        Hurt::NoCarry => without_carries(words, &nodes, true),
    }
}
