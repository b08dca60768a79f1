//! What stands beside a restore: the old version's nodes, which are not free until the end, and versions that share them.

use super::asked::{refusal, restore};
use super::met::Met;
use super::planted::entries;
use crate::call::Call;
use crate::history::Trio;
use crate::parts::room::{both, filled};
use crate::parts::uneven::{self, LEANS};
use crate::parts::Compared;
use crate::plain::{NO_ROOM, ZERO};
use crate::random::Random;
use crate::restore::{self, Entry, Fault, Text};
use crate::rules::{self, Supply, Tree};
use crate::table::Table;
use std::collections::BTreeSet;

/// Exactly as many free nodes as lines, and one fewer, where the version to restore is empty or not.
pub fn room(random: &mut Random, met: &mut Met) -> Compared {
    let (table, version) = (uneven::table(random, 96, 4, 40), random.below(5) as u32);
    let (old, free) = (alone(&table, version as usize).len(), table.free().len());
    let lines = 1 + random.below(free.min(40));
    let text = restore::lines(&entries(random, lines));
    let call = Call::Restore { version, text: Text(text.clone()) };
    let compared = both(random, &table, &call, lines)?;
    met.when(true, "as many lines as free nodes");
    let left = random.below(lines);
    let reply = restore(&mut Trio::of(filled(random, &table, left)), version, &text)?;
    if reply.number != NO_ROOM {
        return Err(format!("{lines} lines where {left} nodes are free: {reply:?}"));
    }
    met.when(left + old >= lines, "5 where the old version's nodes would do");
    Ok(compared + 1)
}

fn numbers(tree: &Tree, all: &mut BTreeSet<u32>) {
    if let Some(node) = tree {
        all.insert(node.number);
        numbers(&node.left, all);
        numbers(&node.right, all);
    }
}

/// The nodes that a version has to itself.
fn alone(table: &Table, version: usize) -> BTreeSet<u32> {
    let (mut own, mut others) = (BTreeSet::new(), BTreeSet::new());
    numbers(&table.versions[version], &mut own);
    (0..16).filter(|&other| other != version).for_each(|other| numbers(&table.versions[other], &mut others));
    &own - &others
}

/// Versions that share trees or parts of them.
fn sharing(random: &mut Random) -> Result<Trio, String> {
    let mut trio = Trio::of(uneven::table(random, 128, 4, 40));
    for _ in 0..random.below(4) {
        let [dest, source] = [random.below(5) as u32, random.below(5) as u32];
        let (key, value) = (random.below(40) as u32, 1 + random.below(9) as u32);
        let edits = [Call::Insert { dest, source, key, value }, Call::Remove { dest, source, key }, Call::Copy { dest, source }];
        trio.step(&edits[random.below(3)])?;
    }
    Ok(trio)
}

/// Restores into some of the versions; words, shapes and sharing of all sixteen are compared at each.
pub fn shared(random: &mut Random, met: &mut Met) -> Compared {
    let mut trio = sharing(random)?;
    for _ in 0..3 {
        let version = random.below(5);
        let (own, size) = (alone(&trio.table, version).len(), rules::size(&trio.table.versions[version]));
        let lines = random.below(20);
        let reply = restore(&mut trio, version as u32, &restore::lines(&entries(random, lines)))?;
        if reply.number == 0 && size > 0 {
            met.when(own == 0, "the old version stays in another");
            met.when(own == size, "the old version goes whole");
            met.when(0 < own && own < size, "of the old version some nodes stay");
        }
    }
    Ok(3 + put_back(random, &mut trio, met)?)
}

/// As many lines as are free over chains and other uneven trees of thousands of nodes, which the restore gives up.
pub fn chains(random: &mut Random, met: &mut Met) -> Compared {
    const NODES: u32 = 2500;
    let keys: Vec<u32> = (0..NODES).collect();
    for lean in LEANS {
        let mut table = Table::fresh(4096);
        let mut numbers = table.free();
        random.shuffle(&mut numbers);
        table.versions[0] = uneven::tree(random, &mut Supply::new(numbers), &keys, lean, usize::MAX);
        let lines = table.free().len();
        let reply = restore(&mut Trio::of(table), 0, &restore::lines(&entries(random, lines)))?;
        if reply.number != 0 {
            return Err(format!("{lines} lines over {NODES} nodes: {reply:?}"));
        }
        met.when(true, "a long chain goes");
    }
    Ok(LEANS.len() as u64)
}

/// A version's listing restored into another, where its entries are the same; a listing that holds 0 is refused at its line.
fn put_back(random: &mut Random, trio: &mut Trio, met: &mut Met) -> Compared {
    let [from, to] = [random.below(5) as u32, 5 + random.below(9) as u32];
    let listed = trio.step(&Call::List { left: from, right: 15, start: 0, room: 4 * 128 })?;
    if listed.number != 0 {
        return Ok(0);
    }
    let rows = listed.words[..listed.fields[0] as usize].chunks_exact(4);
    let entries: Vec<Entry> = rows.map(|row| (row[0], row[1])).collect();
    let zero = entries.iter().position(|entry| entry.1 == 0);
    let reply = restore(trio, to, &restore::lines(&entries))?;
    if let Some(line) = zero {
        met.when(true, "13 for a listing that holds 0");
        let fault = Fault { number: ZERO, line: line as u64 };
        return if reply == refusal(fault) { Ok(1) } else { Err(format!("{entries:?}: {reply:?}, not {fault:?}")) };
    }
    let same = trio.step(&Call::Same { from, to })?.fields[0] == 1;
    met.when(reply.number == 0 && !entries.is_empty(), "a listing put back in another version");
    match (reply.number, same) {
        (0, true) | (NO_ROOM, _) => Ok(2),
        told => Err(format!("{entries:?} put back: number and same {told:?}")),
    }
}
