//! Blocks made by hand, word by word: N, sixteen roots, the occupancy bits, then eight words a node.

use crate::random::Random;
use std::collections::BTreeSet;

pub const KEY: usize = 0;
pub const VALUE: usize = 1;
pub const LEFT: usize = 2;
pub const RIGHT: usize = 3;
pub const SIZE: usize = 4;
pub const COUNT: usize = 5;
pub const LOW: usize = 6;
pub const HIGH: usize = 7;

pub type Entry = (u32, u32);

pub fn length(n: usize) -> usize {
    17 + n / 32 + 8 * n
}

/// Where a word of a node lies in a block of n nodes; nodes are numbered from 1.
pub fn place(n: usize, number: u32, which: usize) -> usize {
    17 + n / 32 + 8 * (number as usize - 1) + which
}

pub fn word(words: &[u32], number: u32, which: usize) -> u32 {
    words[place(words[0] as usize, number, which)]
}

/// The two words of a node's sum, low then high, as one number.
pub fn stored(words: &[u32], number: u32) -> u64 {
    (word(words, number, HIGH) as u64) << 32 | word(words, number, LOW) as u64
}

pub fn store(words: &mut [u32], number: u32, sum: u64) {
    let n = words[0] as usize;
    words[place(n, number, LOW)] = sum as u32;
    words[place(n, number, HIGH)] = (sum >> 32) as u32;
}

#[derive(Clone, Copy, Debug)]
pub enum Shape {
    Balanced,
    Left,
    Right,
    Zigzag,
    Any,
}

pub const SHAPES: [Shape; 5] = [Shape::Balanced, Shape::Left, Shape::Right, Shape::Zigzag, Shape::Any];

impl Shape {
    /// Which of the entries stands at the top.
    fn top(self, random: &mut Random, entries: usize) -> usize {
        match self {
            Shape::Balanced => entries / 2,
            Shape::Left => entries - 1,
            Shape::Right => 0,
            Shape::Zigzag => entries % 2 * (entries - 1),
            Shape::Any => random.below(entries),
        }
    }
}

/// A tree in the block and the entries it was made from, ascending.
struct Piece {
    link: u32,
    entries: Vec<Entry>,
}

pub struct Made {
    pub n: usize,
    pub words: Vec<u32>,
    pub versions: [Vec<Entry>; 16],
    free: Vec<u32>,
}

impl Made {
    fn fresh(random: &mut Random, n: usize) -> Made {
        let mut words = vec![0; length(n)];
        words[0] = n as u32;
        let mut free: Vec<u32> = (1..=n as u32).rev().collect();
        if random.once_in(2) {
            random.shuffle(&mut free);
        }
        Made { n, words, versions: Default::default(), free }
    }

    /// A word of the node that a link names, 0 for none.
    fn word(&self, link: u32, which: usize) -> u32 {
        if link == 0 {
            0
        } else {
            word(&self.words, link, which)
        }
    }

    fn sum(&self, link: u32) -> u128 {
        self.word(link, LOW) as u128 + (self.word(link, HIGH) as u128) * (1 << 32)
    }

    /// One more root or link names the node.
    fn name(&mut self, link: u32) {
        if link != 0 {
            self.words[place(self.n, link, COUNT)] += 1;
        }
    }

    fn node(&mut self, (key, value): Entry, left: u32, right: u32) -> u32 {
        let number = self.free.pop().expect("a free node");
        let (bit, at) = ((number - 1) % 32, 17 + (number as usize - 1) / 32);
        self.words[at] |= 1 << bit;
        let size = 1 + self.word(left, SIZE) + self.word(right, SIZE);
        let sum = value as u128 + self.sum(left) + self.sum(right);
        let (low, high) = ((sum % (1 << 32)) as u32, (sum / (1 << 32)) as u32);
        let first = place(self.n, number, KEY);
        self.words[first..first + 8].copy_from_slice(&[key, value, left, right, size, 0, 0, 0]);
        self.words[first + LOW] = low;
        self.words[first + HIGH] = high;
        self.name(left);
        self.name(right);
        number
    }

    fn link(&mut self, random: &mut Random, shape: Shape, entries: &[Entry]) -> u32 {
        if entries.is_empty() {
            return 0;
        }
        let top = shape.top(random, entries.len());
        let left = self.link(random, shape, &entries[..top]);
        let right = self.link(random, shape, &entries[top + 1..]);
        self.node(entries[top], left, right)
    }

    fn tree(&mut self, random: &mut Random, shape: Shape, entries: &[Entry]) -> Piece {
        Piece { link: self.link(random, shape, entries), entries: entries.to_vec() }
    }

    fn join(&mut self, top: Entry, left: &Piece, right: &Piece) -> Piece {
        let link = self.node(top, left.link, right.link);
        Piece { link, entries: [&left.entries[..], &[top], &right.entries[..]].concat() }
    }

    fn put(&mut self, version: usize, piece: &Piece) {
        self.words[1 + version] = piece.link;
        self.name(piece.link);
        self.versions[version] = piece.entries.clone();
    }

    /// One tree, named by two versions.
    pub fn single(random: &mut Random, n: usize, shape: Shape, entries: &[Entry]) -> Made {
        let mut made = Made::fresh(random, n);
        let piece = made.tree(random, shape, entries);
        made.put(random.below(8), &piece);
        made.put(8 + random.below(8), &piece);
        made
    }

    /// Nine versions that share subtrees, from at least two entries; it takes three nodes more than entries.
    pub fn shared(random: &mut Random, n: usize, shape: Shape, entries: &[Entry]) -> Made {
        let mut made = Made::fresh(random, n);
        let p = random.below(entries.len() - 1);
        let q = p + 1 + random.below(entries.len() - p - 1);
        let other = (entries[p].0, random.word());
        let a = made.tree(random, shape, &entries[..p]);
        let b = made.tree(random, shape, &entries[p + 1..q]);
        let c = made.tree(random, shape, &entries[q + 1..]);
        let (low, high) = (made.join(other, &a, &b), made.join(entries[q], &b, &c));
        let pieces = [
            made.join(entries[p], &a, &high),
            made.join(entries[q], &low, &c),
            made.join(entries[p], &a, &c),
            low,
            high,
            a,
            b,
            c,
        ];
        let mut versions: Vec<usize> = (0..16).collect();
        random.shuffle(&mut versions);
        pieces.iter().zip(&versions).for_each(|(piece, &version)| made.put(version, piece));
        made.put(versions[8], &pieces[0]);
        made
    }
}

/// Ascending keys: close together, anywhere, or at both ends of what a word can hold.
fn keys(random: &mut Random, count: usize) -> Vec<u32> {
    let (mut keys, manner) = (BTreeSet::new(), random.below(3));
    if manner == 2 {
        keys.extend([0, u32::MAX].iter().take(count));
    }
    while keys.len() < count {
        let near = random.below(2 * count + 2) as u32;
        keys.insert(match manner {
            0 => near,
            1 => random.word(),
            _ => random.pick(&[near, u32::MAX - near]),
        });
    }
    keys.into_iter().collect()
}

#[derive(Clone, Copy, Debug)]
pub enum Values {
    Zero,
    One,
    Most,
    Drawn,
    Mixed,
}

pub const VALUES: [Values; 5] = [Values::Zero, Values::One, Values::Most, Values::Drawn, Values::Mixed];

impl Values {
    pub fn draw(self, random: &mut Random) -> u32 {
        match self {
            Values::Zero => 0,
            Values::One => 1,
            Values::Most => u32::MAX,
            Values::Drawn => random.word(),
            Values::Mixed => {
                let drawn = random.word();
                random.pick(&[0, 1, u32::MAX, drawn])
            }
        }
    }
}

pub fn entries(random: &mut Random, count: usize, values: Values) -> Vec<Entry> {
    keys(random, count).into_iter().map(|key| (key, values.draw(random))).collect()
}
