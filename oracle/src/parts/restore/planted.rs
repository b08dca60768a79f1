//! Listings with chosen faults: what is told of them follows from the choice, and not from reading them.

use crate::parts::lines::planted::NO_DIGITS;
use crate::random::Random;
use crate::restore::{self, Entry, Fault, BYTES};
use std::collections::BTreeSet;

/// The faults of a line in their order.
#[derive(Clone, Copy, PartialEq, Eq, PartialOrd, Ord, Debug)]
pub enum Flaw {
    Malformed,
    Zero,
    Order,
}

pub const FLAWS: [Flaw; 3] = [Flaw::Malformed, Flaw::Zero, Flaw::Order];

impl Flaw {
    pub fn number(self) -> u32 {
        match self {
            Flaw::Malformed => 17,
            Flaw::Zero => 13,
            Flaw::Order => 18,
        }
    }
}

pub type Flaws = BTreeSet<Flaw>;

/// So many entries that may be restored: neighbouring keys, keys with gaps or keys from anywhere, the ends among them now and then.
pub fn entries(random: &mut Random, count: usize) -> Vec<Entry> {
    let (first, gap) = (random.pick(&[0, 1, 1000, 1 << 31, u32::MAX - count as u32 * 7]), random.pick(&[1, 1, 3, 7]));
    let mut keys: BTreeSet<u32> = (0..count as u32).map(|at| first + gap * at).collect();
    if random.once_in(2) {
        keys = [0, u32::MAX].into_iter().filter(|_| random.once_in(2)).take(count).collect();
        while keys.len() < count {
            keys.insert(random.word() >> random.below(12));
        }
    }
    keys.into_iter().map(|key| (key, value(random))).collect()
}

fn value(random: &mut Random) -> u32 {
    match random.below(4) {
        0 => 1 << random.below(32),
        1 => random.pick(&[1, 10, 256, 1 << 16, u32::MAX]),
        _ => random.word().max(1),
    }
}

/// A byte that may not stand at a place of a line.
pub fn wrong_byte(random: &mut Random, place: usize) -> u8 {
    if place + 1 == BYTES {
        random.pick(&[0, 9, 11, 13, b' ', b'0', b'f', 0x8a, 255])
    } else {
        random.pick(&NO_DIGITS)
    }
}

/// A key that is not above another.
fn not_above(random: &mut Random, key: u32) -> u32 {
    match random.below(4) {
        0 => key,
        1 => key.saturating_sub(1),
        2 => 0,
        _ => (random.next() % (u64::from(key) + 1)) as u32,
    }
}

/// A line with these flaws at its place among good entries; an order flaw needs a line before it.
pub fn line(random: &mut Random, entries: &[Entry], at: usize, flaws: &Flaws) -> Vec<u8> {
    let (mut key, mut value) = entries[at];
    if flaws.contains(&Flaw::Order) {
        key = not_above(random, entries[at - 1].0);
    }
    if flaws.contains(&Flaw::Zero) {
        value = 0;
    }
    let mut line = restore::lines(&[(key, value)]);
    if flaws.contains(&Flaw::Malformed) {
        for _ in 0..1 + random.below(3) {
            let place = random.below(BYTES);
            line[place] = wrong_byte(random, place);
        }
    }
    line
}

/// The text of the entries with one line in place of another.
pub fn with_line(entries: &[Entry], at: usize, line: &[u8]) -> Vec<u8> {
    [&restore::lines(&entries[..at]), line, &restore::lines(&entries[at + 1..])].concat()
}

/// The fault that decides among the flaws of lines: the first faulty line's, and of that line the first flaw.
pub fn deciding(flawed: &[(usize, Flaws)]) -> Option<Fault> {
    let first = flawed.iter().filter(|(_, flaws)| !flaws.is_empty()).min_by_key(|(line, _)| *line)?;
    let number = first.1.first()?.number();
    Some(Fault { number, line: first.0 as u64 })
}
