//! Trees that no edit would build: chains and random shapes, under nodes numbered at random. Balance is no part of soundness,
//! so every call must answer on them too, and listings may go too deep.

use super::{Compared, Effort};
use crate::call::Call;
use crate::history::{Keys, Mix, Trio};
use crate::plain::TOO_DEEP;
use crate::random::Random;
use crate::rules::{Supply, Tree};
use crate::table::Table;

/// How a root divides the keys of its tree.
#[derive(Clone, Copy)]
pub enum Lean {
    Left,
    Right,
    Zigzag,
    Anyhow,
}

pub const LEANS: [Lean; 4] = [Lean::Left, Lean::Right, Lean::Zigzag, Lean::Anyhow];

fn below_left(random: &mut Random, lean: Lean, keys: usize) -> usize {
    match lean {
        Lean::Left => keys - 1,
        Lean::Right => 0,
        Lean::Zigzag => keys % 2 * (keys - 1),
        Lean::Anyhow => random.below(keys),
    }
}

/// A tree of the entries, whose keys ascend; once in a while the lean is not followed.
pub fn holding(random: &mut Random, supply: &mut Supply, entries: &[(u32, u32)], lean: Lean, whim: usize) -> Tree {
    if entries.is_empty() {
        return None;
    }
    let lean_here = if random.once_in(whim) { Lean::Anyhow } else { lean };
    let at = below_left(random, lean_here, entries.len());
    let left = holding(random, supply, &entries[..at], lean, whim);
    let right = holding(random, supply, &entries[at + 1..], lean, whim);
    let (key, value) = entries[at];
    supply.make(key, value, left, right)
}

/// A tree of the keys, with small values.
pub fn tree(random: &mut Random, supply: &mut Supply, keys: &[u32], lean: Lean, whim: usize) -> Tree {
    let entries: Vec<(u32, u32)> = keys.iter().map(|&key| (key, random.below(3) as u32)).collect();
    holding(random, supply, &entries, lean, whim)
}

/// Some keys below a bound, ascending.
fn keys(random: &mut Random, most: usize, bound: usize) -> Vec<u32> {
    let wanted = random.below(most + 1);
    let mut keys: Vec<u32> = (0..wanted).map(|_| random.below(bound) as u32).collect();
    keys.sort();
    keys.dedup();
    keys
}

/// A table whose first versions are uneven trees, some of them shared.
pub fn table(random: &mut Random, n: usize, versions: usize, bound: usize) -> Table {
    let mut table = Table::fresh(n);
    let mut numbers: Vec<u32> = (1..=n as u32).collect();
    random.shuffle(&mut numbers);
    let mut supply = Supply::new(numbers);
    for version in 0..versions {
        let left = n - supply.made();
        let (keys, lean, whim) = (keys(random, left / 2, bound), random.pick(&LEANS), random.pick(&[3, 20, 1000]));
        table.versions[version] = match random.below(4) {
            0 if version > 0 => table.versions[random.below(version)].clone(),
            _ => tree(random, &mut supply, &keys, lean, whim),
        };
    }
    table
}

/// Edits of uneven trees, once in a while of chains a thousand nodes long.
pub fn edits(effort: Effort) -> Compared {
    effort.each(10_000, |random| {
        let n = if random.once_in(100) { 4096 } else { 32 * (1 + random.below(8)) };
        let versions = 2 + random.below(3);
        let bound = 8 + random.below(2 * n);
        let mut trio = Trio::of(table(random, n, versions, bound));
        let mix = Mix { versions, keys: Keys::Below(bound), illegal: 500, large: 20 };
        for _ in 0..12 {
            let call = if random.once_in(4) { mix.question(random, n) } else { mix.edit(random) };
            trio.step(&call)?;
        }
        Ok(12)
    })
}

/// Listings and deltas of deep trees: TOO_DEEP exactly when a walk has more than 64 pending on one side.
pub fn depths(effort: Effort) -> Compared {
    let deep = std::cell::Cell::new(0u64);
    let compared = effort.each(4000, |random| {
        let n = 32 * (5 + random.below(8));
        let bound = n + random.below(n);
        let mut trio = Trio::of(table(random, n, 3, bound));
        for (left, right) in [(0, 1), (1, 0), (0, 2), (2, 2), (0, 15), (15, 0)] {
            let listed = trio.step(&Call::List { left, right, start: 0, room: 4 * n })?;
            let framed = trio.step(&Call::Frames { from: left, to: right, batch: 7, start: 0, room: 35 * n })?;
            deep.set(deep.get() + [listed.number, framed.number].iter().filter(|&&number| number == TOO_DEEP).count() as u64);
        }
        Ok(12)
    })?;
    // Both answers must occur, or the part compares less than it says.
    if deep.get() == 0 || deep.get() == compared {
        Err(format!("{} of {compared} walks were too deep", deep.get()))
    } else {
        Ok(compared)
    }
}
