//! The same calls on sixteen maps of the original.

use crate::block::Block;
use crate::call::{Call, Reply};
use crate::frame::Frame;
use crate::plain::frame_edit;
use crate::restore;
use crate::rules::{merged, reduced};
use crate::walk::Row;
use crate::wbtree::map::look::{self, Spot};
use crate::wbtree::map::WBTreeMap;
use std::collections::HashMap;

pub type Map = WBTreeMap<u32>;

pub fn rows(left: &Map, right: &Map) -> Vec<Row> {
    let row = |(key, value, beside): (u32, &u32, Option<&u32>)| [key, *value, beside.is_some() as u32, *beside.unwrap_or(&0)];
    left.difference_entries(right).map(row).collect()
}

/// Does an edit; the old value is the answer of insert and remove.
pub fn edit(maps: &mut [Map], call: &Call) -> Option<u32> {
    match *call {
        Call::Insert { dest, source, key, value } => on_copy(maps, dest, source, |map| map.insert(key, value)),
        Call::Remove { dest, source, key } => on_copy(maps, dest, source, |map| map.remove(&key)),
        Call::Copy { dest, source } => on_copy(maps, dest, source, |_| None),
        Call::Batch { dest, source, ref edits } => on_copy(maps, dest, source, |map| one_by_one(map, edits)),
        Call::Clear { version } => {
            maps[version as usize].clear();
            None
        }
        Call::Restore { version, ref text } => {
            let entries = restore::entries(&text.0).expect("the call was done");
            maps[version as usize] = inserted(&entries);
            None
        }
        Call::Union { dest, left, right, rule } => {
            let (left, right) = (&maps[left as usize], &maps[right as usize]);
            maps[dest as usize] = left.union(right, |_, l, r| merged(rule, l, r));
            None
        }
        Call::Difference { dest, left, right, rule, cancel } => {
            let (left, right) = (&maps[left as usize], &maps[right as usize]);
            let by_rule = |_: &u32, l, r| reduced(rule, l, r);
            maps[dest as usize] =
                if cancel == 1 { left.difference_shared(right, by_rule) } else { left.difference(right, by_rule) };
            None
        }
        _ => unreachable!("not an edit"),
    }
}

/// The edits of a batch, each by the original's own call; a batch has no old value to tell.
fn one_by_one(map: &mut Map, edits: &[u32]) -> Option<u32> {
    for edit in edits.chunks_exact(3) {
        match edit[0] {
            1 => map.insert(edit[1], edit[2]),
            _ => map.remove(&edit[1]),
        };
    }
    None
}

/// The original has no restore: its own inserts come to the same entries, mostly under another shape.
fn inserted(entries: &[restore::Entry]) -> Map {
    let mut map = Map::new();
    for &(key, value) in entries {
        map.insert(key, value);
    }
    map
}

/// After a restore the version's entries must be those of the original's inserts; then the original goes on from the block's shape.
pub fn reshape(maps: &mut [Map], version: u32, words: &[u32]) -> Result<(), String> {
    let (map, empty) = (&mut maps[version as usize], Map::new());
    let restored = look::plant(words).swap_remove(version as usize);
    same("restored entries", rows(map, &empty), rows(&restored, &empty))?;
    *map = restored;
    Ok(())
}

/// With one version as both the call edits in place, else it edits a clone.
fn on_copy(maps: &mut [Map], dest: u32, source: u32, edit: impl FnOnce(&mut Map) -> Option<u32>) -> Option<u32> {
    if dest != source {
        maps[dest as usize] = maps[source as usize].clone();
    }
    edit(&mut maps[dest as usize])
}

/// The sum over the original's own iteration, its low and its high word.
fn sum(map: &Map, first: u32, last: u32) -> [u32; 2] {
    let minutes: u64 = rows(map, &Map::new()).iter().filter(|row| first <= row[0] && row[0] <= last).map(|row| row[1] as u64).sum();
    [minutes as u32, (minutes >> 32) as u32]
}

/// Follows a call that the export has done, and says where the original's answer differs.
pub fn follow(maps: &mut [Map], call: &Call, reply: &Reply) -> Result<(), String> {
    let found = |value: Option<u32>| [value.is_some() as u32, value.unwrap_or(0)];
    match *call {
        Call::Lookup { version, key } => same("lookup", found(maps[version as usize].get(&key).copied()), reply.fields),
        Call::Size { version } => same("size", [maps[version as usize].len() as u32, 0], reply.fields),
        Call::Held { version } => same("held", sum(&maps[version as usize], 0, u32::MAX), reply.fields),
        Call::HeldBetween { version, first, last } => same("held", sum(&maps[version as usize], first, last), reply.fields),
        Call::List { left, right, start, .. } => {
            let rows = rows(&maps[left as usize], &maps[right as usize]);
            same("total", rows.len() as u32, reply.fields[1])?;
            let from = rows.len().min(start as usize);
            let told = reply.words[..reply.fields[0] as usize].chunks_exact(4);
            same("rows", true, told.zip(&rows[from..]).all(|(told, row)| told == row))
        }
        Call::Frames { .. } | Call::Ask { .. } | Call::Resend { .. } => Ok(()),
        Call::Same { from, to } => {
            let entries = |version: u32| rows(&maps[version as usize], &Map::new());
            same("same entries", [(entries(from) == entries(to)) as u32, 0], reply.fields)
        }
        Call::Receive { version, ref line } => {
            let frame = Frame::parse(line).filter(|_| reply.fields[0] == 0);
            frame.and_then(|frame| frame_edit(&frame, version)).map(|call| edit(maps, &call));
            Ok(())
        }
        Call::Insert { .. } | Call::Remove { .. } => same("old value", found(edit(maps, call)), reply.fields),
        _ => same("old value", None, edit(maps, call)),
    }
}

fn same<T: PartialEq + std::fmt::Debug>(what: &str, original: T, export: T) -> Result<(), String> {
    if original == export {
        Ok(())
    } else {
        Err(format!("{what}: original {original:?}, export {export:?}"))
    }
}

/// Shape and sharing over all versions: keys, values and sizes node by node, and node numbers and addresses one to one.
/// Gives the number of distinct nodes.
pub fn alike(words: &[u32], maps: &[Map]) -> Result<usize, String> {
    let block = Block(words);
    let mut address_of = vec![0; block.n() + 1];
    let mut number_of = HashMap::new();
    let mut pending: Vec<(u32, Option<Spot>)> = (0..16).map(|v| (block.root(v), look::root(&maps[v]))).collect();
    while let Some((number, spot)) = pending.pop() {
        let Some(spot) = spot else {
            same("empty tree", 0, number)?;
            continue;
        };
        let known = address_of
            .get_mut(number as usize)
            .filter(|_| number != 0)
            .ok_or(format!("link {number} to a node of the original"))?;
        if *known == 0 {
            *known = spot.address();
            same("number of an address", None, number_of.insert(spot.address(), number))?;
            let node = block.node(number);
            same("key, value, size", (spot.key(), spot.value(), spot.size()), (node.key, node.value, node.size as usize))?;
            pending.push((node.left, spot.left()));
            pending.push((node.right, spot.right()));
        }
        same("address of a number", spot.address(), address_of[number as usize])?;
    }
    let occupied = (1..=block.n() as u32).filter(|&number| block.occupied(number)).count();
    same("distinct nodes", number_of.len(), occupied)?;
    Ok(occupied)
}
