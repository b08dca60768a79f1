//! Histories that climb: of a few calls the one is made whose tree then has the most items pending, or leans most.

use super::asked::Pair;
use super::shapes::{balanced, least_nodes, most_pending, order, value, worst};
use crate::batch::MOST;
use crate::call::Call;
use crate::parts::Compared;
use crate::plain;
use crate::random::Random;
use crate::rules::{size, Supply, Tree};
use crate::table::Table;
use crate::walk::pending;

const STEPS: usize = 30;
const DRAWN: usize = 5;
const VERSIONS: usize = 4;

/// Keys stand this far apart at first, so that others fit between.
const APART: u32 = 64;

/// Starts from a tree that is as bad as any of its size, then climbs.
pub fn history(random: &mut Random) -> Compared {
    let n = random.pick(&[32, 64, 256, 1024, 2016, 4096]);
    let mut pair = Pair::fresh(n);
    let mut compared = start(random, &mut pair)?;
    for _ in 0..STEPS {
        let calls = (0..DRAWN).filter_map(|_| draw(random, &pair.table));
        let best = calls.max_by_key(|call| lean(&pair.table, call)).unwrap_or(Call::Clear { version: 3 });
        pair.answer(&best)?;
        pair.same()?;
        let (a, b) = (random.below(VERSIONS) as u32, random.below(VERSIONS) as u32);
        compared += 1 + pair.walks(a, b)?;
        let (left, right) = (&pair.table.versions[a as usize], &pair.table.versions[b as usize]);
        let bound = most_pending(size(left).max(size(right)));
        if pending(left, right).map_or(true, |met| met > bound) {
            return Err(format!("after {best:?} more than {bound} items were pending in a walk of {a} against {b}"));
        }
        if !pair.table.versions.iter().all(balanced) {
            return Err(format!("after {best:?} a version is not balanced"));
        }
    }
    Ok(compared)
}

/// Version 0 is a worst tree of up to half of the nodes, or nearly one, and version 1 a smaller one, of other keys.
fn start(random: &mut Random, pair: &mut Pair) -> Compared {
    for (version, part) in [(0, 2), (1, 8)] {
        let most = most_pending(pair.table.n / part);
        let pending = most - random.below(most.min(4));
        let keys: Vec<u32> = (1..=least_nodes(pending) as u32).map(|i| APART * i + version).collect();
        let order = order(&worst(&mut Supply::new((1..=keys.len() as u32).collect()), pending, &keys));
        for keys in order.chunks(MOST) {
            let edits = keys.iter().flat_map(|&key| [1, key, value(key)]).collect();
            pair.done(&Call::Batch { dest: version, source: version, edits })?;
        }
    }
    Ok(2)
}

/// How far a call's tree leans: the items that its walk has pending, then the worst node's two weights; nothing where the call is refused.
fn lean(table: &Table, call: &Call) -> (usize, usize) {
    let mut after = table.clone();
    let dest = call.versions()[0] as usize;
    if plain::answer(&mut after, &mut [], call).number != 0 {
        return (0, 0);
    }
    let tree = &after.versions[dest];
    (pending(tree, &None).unwrap_or(65), steepest(tree))
}

/// A thousand times the heavier side's weight by the lighter one's, at the worst node.
fn steepest(tree: &Tree) -> usize {
    let Some(node) = tree else { return 0 };
    let (left, right) = (size(&node.left) + 1, size(&node.right) + 1);
    let here = 1000 * left.max(right) / left.min(right);
    here.max(steepest(&node.left)).max(steepest(&node.right))
}

/// An edit of a stretch of a version's keys, or one of two versions; none where the version is empty.
fn draw(random: &mut Random, table: &Table) -> Option<Call> {
    let [dest, source, other] = [0; 3].map(|_| random.below(VERSIONS) as u32);
    let mut keys = vec![];
    collect(&table.versions[source as usize], &mut keys);
    if keys.is_empty() {
        return Some(Call::Copy { dest: source, source: other });
    }
    let from = random.below(keys.len());
    let stretch = &keys[from..keys.len().min(from + 1 + random.below(40))];
    let step = random.pick(&[1, 1, 2, 3]);
    Some(match random.below(10) {
        0 | 1 => batch(dest, source, stretch.iter().step_by(step).flat_map(|&key| [2, key, 0])),
        2 | 3 => batch(dest, source, stretch.iter().step_by(step).flat_map(|&key| [1, key + 1 + random.below(7) as u32, 1])),
        4 => batch(dest, source, (1..40).flat_map(|i| [1, keys[from] + i, 1])),
        5 => Call::Insert { dest, source, key: keys[from] + random.below(APART as usize) as u32, value: 1 },
        6 => Call::Remove { dest, source, key: keys[from] },
        7 => Call::Union { dest, left: source, right: other, rule: 0 },
        8 => Call::Difference { dest, left: source, right: other, rule: 0, cancel: random.below(2) as u32 },
        _ => Call::Copy { dest, source },
    })
}

fn batch(dest: u32, source: u32, words: impl Iterator<Item = u32>) -> Call {
    Call::Batch { dest, source, edits: words.collect() }
}

fn collect(tree: &Tree, keys: &mut Vec<u32>) {
    if let Some(node) = tree {
        collect(&node.left, keys);
        keys.push(node.key);
        collect(&node.right, keys);
    }
}
