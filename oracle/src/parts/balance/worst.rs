//! The worst trees, made from a fresh block by inserts, by batches and by lines that a standby hears.

use super::asked::Pair;
use super::shapes::{alike, balanced, least_nodes, most_pending, order, value, worst};
use crate::batch::MOST;
use crate::call::Call;
use crate::exports;
use crate::frame::Frame;
use crate::parts::Compared;
use crate::plain::NO_ROOM;
use crate::rules::{Supply, Tree};
use crate::walk::pending;

/// N, the most pending items of a tree within it, and of one that these calls find room to make. Within the standby's 2,016 nodes a
/// tree of 2,005 needs 44, but its last insert remakes a path of more nodes than are left.
const MOST_PENDING: [(usize, usize, usize); 4] = [(1024, 39, 39), (2016, 44, 43), (2048, 44, 44), (4096, 49, 49)];

/// Pending items and the fewest nodes that need them; 65 would be too deep.
const LEAST_NODES: [(usize, usize); 7] = [(15, 26), (39, 871), (44, 2005), (49, 3677), (50, 4755), (64, 35_637), (65, 36_746)];

type Making = fn(&mut Pair, &[u32]) -> Result<(), String>;

const MAKINGS: [(&str, Making); 3] = [("inserts", by_inserts), ("batches", by_batches), ("lines", by_lines)];

pub fn all() -> Compared {
    if let Some(&(items, nodes)) = LEAST_NODES.iter().find(|&&(items, nodes)| least_nodes(items) != nodes) {
        return Err(format!("{items} items need {} nodes, not {nodes}", least_nodes(items)));
    }
    let mut compared = 0;
    for (n, most, met) in MOST_PENDING {
        if most_pending(n) != most {
            return Err(format!("N = {n}: {} items at the most, not {most}", most_pending(n)));
        }
        for (name, making) in MAKINGS {
            compared += made(n, met, making).map_err(|what| format!("N = {n}, by {name}: {what}"))?;
        }
    }
    Ok(compared)
}

/// The worst tree as version 0. It is walked against an empty version, and on the other side by one entry above all of its own; an
/// empty left has nothing to walk.
fn made(n: usize, most: usize, making: Making) -> Compared {
    let keys: Vec<u32> = (1..=least_nodes(most) as u32).collect();
    let tree = worst(&mut Supply::new((1..=n as u32).collect()), most, &keys);
    let mut pair = Pair::fresh(n);
    making(&mut pair, &order(&tree))?;
    pair.same()?;
    if !balanced(&tree) || !alike(&tree, &pair.table.versions[0]) {
        return Err("the tree is not the worst one".into());
    }
    pair.done(&Call::Insert { dest: 1, source: 1, key: u32::MAX, value: 1 })?;
    for other in [1, 15] {
        needs(&pair.table.versions[0], &pair.table.versions[other], most)?;
        needs(&pair.table.versions[other], &pair.table.versions[0], if other == 1 { most } else { 1 })?;
    }
    Ok(keys.len() as u64 + pair.walks(0, 1)? + pair.walks(0, 15)?)
}

fn needs(left: &Tree, right: &Tree, most: usize) -> Result<(), String> {
    match pending(left, right) {
        Ok(met) if met == most => Ok(()),
        Ok(met) => Err(format!("{met} items were pending, not {most}")),
        Err(_) => Err("the walk was too deep".into()),
    }
}

fn insert(key: u32) -> Call {
    Call::Insert { dest: 0, source: 0, key, value: value(key) }
}

fn by_inserts(pair: &mut Pair, keys: &[u32]) -> Result<(), String> {
    keys.iter().try_for_each(|&key| pair.done(&insert(key)))
}

/// Batches as large as they may be, and half as large where there is no room.
fn by_batches(pair: &mut Pair, mut keys: &[u32]) -> Result<(), String> {
    let mut most = MOST;
    while !keys.is_empty() {
        let (now, later) = keys.split_at(most.min(keys.len()));
        let edits = now.iter().flat_map(|&key| [1, key, value(key)]).collect();
        match pair.answer(&Call::Batch { dest: 0, source: 0, edits })? {
            0 => keys = later,
            NO_ROOM if most > 1 => most /= 2,
            number => return Err(format!("a batch of {most}: {number}")),
        }
    }
    Ok(())
}

fn by_lines(pair: &mut Pair, keys: &[u32]) -> Result<(), String> {
    let count = keys.len() as u32;
    assert_eq!(exports::begin(&mut pair.inbox, 7), 0);
    keys.iter().zip(0..).try_for_each(|(&key, index)| {
        let line = Frame { batch: 7, index, count, kind: 1, key, value: value(key) }.line();
        pair.done(&Call::Receive { version: 0, line })
    })
}
