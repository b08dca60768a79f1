//! Chains, zigzags and other uneven trees of nearly the same entries, with and without nodes in common: the walk may be too deep
//! before the first put, after it, or only on the way back.

use super::asked::ask;
use super::met::Met;
use crate::history::Trio;
use crate::parts::uneven::{holding, LEANS};
use crate::parts::Compared;
use crate::random::Random;
use crate::rules::{self, Supply, Tree};
use crate::table::Table;

const N: usize = 1024;

type Entry = (u32, u32);

fn drawn(random: &mut Random) -> Vec<Entry> {
    let most = random.pick(&[3, 40, 90, 160, 240]);
    (0..random.below(most) as u32).map(|i| (2 * i + 1, random.below(3) as u32)).collect()
}

/// Any free numbers.
fn supply(random: &mut Random, table: &Table) -> Supply {
    let mut free = table.free();
    random.shuffle(&mut free);
    Supply::new(free)
}

/// A place that is often near an end.
fn at(random: &mut Random, entries: &[Entry]) -> usize {
    let near = random.below(entries.len().min(4));
    match random.below(3) {
        0 => near,
        1 => entries.len() - 1 - near,
        _ => random.below(entries.len()),
    }
}

/// One entry other, gone or new; or none.
fn changed(random: &mut Random, entries: &[Entry]) -> Vec<Entry> {
    let mut entries = entries.to_vec();
    if !entries.is_empty() {
        let at = at(random, &entries);
        match random.below(5) {
            0 => {}
            1 => entries[at].1 += 1,
            2 => drop(entries.remove(at)),
            3 => entries.insert(at, (entries[at].0 - 1, 1)),
            _ => entries.truncate(at),
        }
    }
    entries
}

/// A leaf or another value at a key's own place, with new nodes above it and no rotation: the tree stays as deep as it was.
fn remade(supply: &mut Supply, tree: &Tree, key: u32, value: u32) -> Tree {
    let Some(node) = tree else { return supply.make(key, value, None, None) };
    let (left, right) = (node.left.clone(), node.right.clone());
    if key < node.key {
        let left = remade(supply, &left, key, value);
        supply.make(node.key, node.value, left, right)
    } else if key > node.key {
        let right = remade(supply, &right, key, value);
        supply.make(node.key, node.value, left, right)
    } else {
        supply.make(key, value, left, right)
    }
}

/// Another tree of nearly the same entries.
fn beside(random: &mut Random, supply: &mut Supply, tree: &Tree, entries: &[Entry]) -> Tree {
    if entries.is_empty() || random.once_in(2) {
        let (entries, lean, whim) = (changed(random, entries), random.pick(&LEANS), random.pick(&[3, 20, 1000]));
        return holding(random, supply, &entries, lean, whim);
    }
    let (key, value) = entries[at(random, entries)];
    match random.below(5) {
        0 => remade(supply, tree, key, value),
        1 => remade(supply, tree, key, value + 1),
        2 => remade(supply, tree, key - 1, value),
        3 => rules::insert(supply, tree, key - 1, value),
        _ => rules::remove(supply, tree, key),
    }
}

/// Three trees, the second and third made from the first, and an empty one; every pair is asked.
pub fn pairs(random: &mut Random, met: &mut Met) -> Compared {
    let (entries, lean, whim) = (drawn(random), random.pick(&LEANS), random.pick(&[3, 20, 1000]));
    let mut table = Table::fresh(N);
    let mut any = supply(random, &table);
    table.versions[0] = holding(random, &mut any, &entries, lean, whim);
    for version in [1, 2] {
        let mut any = supply(random, &table);
        table.versions[version] = beside(random, &mut any, &table.versions[0], &entries);
    }
    let mut trio = Trio::of(table);
    for from in 0..4 {
        for to in 0..4 {
            ask(&mut trio, from, to, met)?;
        }
    }
    Ok(16)
}
