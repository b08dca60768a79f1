//! Writes a stored sample: a random history of calls, and what the original answers to each. Usage: sample SEED CALLS ANSWERS
//!
//! A root of its own beside `lib.rs`: it has the original without the exported calls.
#![allow(dead_code)]

mod batch;
mod block;
mod call;
mod frame;
mod original;
mod plain;
mod random;
mod restore;
mod rules;
mod table;
mod walk;
mod wbtree;

#[path = "../eqlog/eqlog-runtime/src/prefix_tree.rs"]
mod prefix_tree;
use prefix_tree::PrefixTree2;

use call::Call;
use original::Map;
use random::Random;
use std::collections::BTreeMap;
use std::fmt::Write;
use wbtree::map::look::{self, Spot};

/// As in `lib.rs`: the original names these two, and the table has no mapped trees.
struct Error;
struct Fuel;

impl Fuel {
    fn consume(&mut self, _steps: u64) -> Result<(), Error> {
        Ok(())
    }
}

const CALLS: usize = 800;

/// Six versions of at most 48 keys: a block of N = 2,016 has room for every call.
const VERSIONS: usize = 6;
const SMALL_KEYS: usize = 44;
const EDGES: [u32; 4] = [1 << 31, (1 << 31) + 1, u32::MAX - 1, u32::MAX];

fn version(random: &mut Random) -> u32 {
    random.below(VERSIONS) as u32
}

fn key(random: &mut Random) -> u32 {
    let drawn = random.below(SMALL_KEYS + EDGES.len());
    drawn.checked_sub(SMALL_KEYS).map_or(drawn as u32, |edge| EDGES[edge])
}

/// Mostly small, so that equal values meet; sometimes so large that a sum does not fit. Never 0: the table refuses to insert it.
fn value(random: &mut Random) -> u32 {
    match random.below(12) {
        0 => random.pick(&EDGES),
        _ => 1 + random.below(9) as u32,
    }
}

/// Usually the destination itself, where the original edits in place.
fn source(random: &mut Random, dest: u32) -> u32 {
    if random.once_in(4) {
        version(random)
    } else {
        dest
    }
}

/// Inserts and unions outdo removes and differences, so that trees grow.
fn draw(random: &mut Random) -> Call {
    let dest = version(random);
    match random.below(32) {
        0..=13 => Call::Insert { dest, source: source(random, dest), key: key(random), value: value(random) },
        14..=20 => Call::Remove { dest, source: source(random, dest), key: key(random) },
        21 if random.once_in(2) => Call::Copy { dest, source: version(random) },
        21 if random.once_in(4) => Call::Clear { version: dest },
        21..=24 => Call::Union { dest, left: version(random), right: version(random), rule: random.below(5) as u32 },
        25..=27 => difference(random, dest),
        28 => Call::List { left: dest, right: version(random), start: 0, room: 0 },
        29 | 30 => Call::Lookup { version: dest, key: key(random) },
        _ => Call::Size { version: dest },
    }
}

/// Rule 2 never cancels.
fn difference(random: &mut Random, dest: u32) -> Call {
    let rule = random.below(4) as u32;
    let cancel = if rule == 2 { 0 } else { random.below(2) as u32 };
    Call::Difference { dest, left: version(random), right: version(random), rule, cancel }
}

fn name(call: &Call) -> &'static str {
    match call {
        Call::Lookup { .. } => "lookup",
        Call::Size { .. } => "size",
        Call::Clear { .. } => "clear",
        Call::Insert { .. } => "insert",
        Call::Remove { .. } => "remove",
        Call::Copy { .. } => "copy",
        Call::Union { .. } => "union",
        Call::Difference { .. } => "difference",
        Call::List { .. } => "list",
        _ => unreachable!("not drawn"),
    }
}

/// Call number, destination, left, right, key or rule, value or cancel; 0 where a call has no such field.
fn fields(call: &Call) -> [u32; 6] {
    match *call {
        Call::Lookup { version, key } => [0, 0, version, 0, key, 0],
        Call::Size { version } => [1, 0, version, 0, 0, 0],
        Call::Clear { version } => [2, version, 0, 0, 0, 0],
        Call::Insert { dest, source, key, value } => [3, dest, source, 0, key, value],
        Call::Remove { dest, source, key } => [4, dest, source, 0, key, 0],
        Call::Copy { dest, source } => [5, dest, source, 0, 0, 0],
        Call::Union { dest, left, right, rule } => [6, dest, left, right, rule, 0],
        Call::Difference { dest, left, right, rule, cancel } => [7, dest, left, right, rule, cancel],
        Call::List { left, right, .. } => [8, 0, left, right, 0, 0],
        _ => unreachable!("not drawn"),
    }
}

fn or_dash(value: Option<u32>) -> String {
    value.map_or("-".to_string(), |value| value.to_string())
}

/// Key, value and size of every node, top first and left before right: with keys in order this fixes the shape.
fn tree(spot: Option<Spot>, text: &mut String) {
    if let Some(spot) = spot {
        write!(text, " {}:{}:{}", spot.key(), spot.value(), spot.size()).unwrap();
        tree(spot.left(), text);
        tree(spot.right(), text);
    }
}

/// A union by sums in which one does not fit. The original would have to do something about it; the table refuses the call.
fn exceeds(maps: &[Map], call: &Call) -> bool {
    let Call::Union { left, right, rule: 4, .. } = *call else { return false };
    let right = &maps[right as usize];
    let sum = |row: &[u32; 4]| row[1] as u64 + right.get(&row[0]).map_or(0, |&value| value as u64);
    original::rows(&maps[left as usize], &Map::new()).iter().any(|row| sum(row) > u32::MAX as u64)
}

/// Does a call on the original, and says what it answered and, after an edit, what the destination is.
fn answer(maps: &mut [Map], call: &Call) -> String {
    let mut text = name(call).to_string();
    if exceeds(maps, call) {
        return text + " refused 14\n";
    }
    match *call {
        Call::Lookup { version, key } => text += &format!(" {}", or_dash(maps[version as usize].get(&key).copied())),
        Call::Size { version } => text += &format!(" {}", maps[version as usize].len()),
        Call::List { left, right, .. } => {
            for (key, value, beside) in maps[left as usize].difference_entries(&maps[right as usize]) {
                text += &format!(" {key}:{value}:{}", or_dash(beside.copied()));
            }
        }
        _ => {
            let old = original::edit(maps, call);
            if matches!(call, Call::Insert { .. } | Call::Remove { .. }) {
                text += &format!(" {}", or_dash(old));
            }
            let dest = fields(call)[1] as usize;
            tree(look::root(&maps[dest]), &mut text);
        }
    }
    text + "\n"
}

/// Calls of one kind: rules, cancelling and refusals are kinds of their own.
fn kind(call: &Call, refused: bool) -> String {
    match *call {
        Call::Union { rule, .. } => format!("union by {rule}{}", if refused { " refused" } else { "" }),
        Call::Difference { rule, cancel, .. } => format!("difference by {rule}{}", ["", " cancelling"][cancel as usize]),
        _ => name(call).to_string(),
    }
}

fn main() {
    let words: Vec<String> = std::env::args().skip(1).collect();
    let [seed, calls_file, answers_file] = words.as_slice() else { panic!("usage: sample SEED CALLS ANSWERS") };
    let mut random = Random::new(seed.parse().expect("the seed is a number"));
    let mut maps = vec![Map::new(); 16];
    let (mut calls, mut answers, mut kinds, mut largest) = (String::new(), String::new(), BTreeMap::new(), 0);
    for _ in 0..CALLS {
        let call = draw(&mut random);
        writeln!(calls, "{}", fields(&call).map(|field| field.to_string()).join(" ")).unwrap();
        let refused = exceeds(&maps, &call);
        answers += &answer(&mut maps, &call);
        *kinds.entry(kind(&call, refused)).or_insert(0) += 1;
        largest = largest.max(maps.iter().map(Map::len).max().unwrap());
    }
    std::fs::write(calls_file, &calls).unwrap();
    std::fs::write(answers_file, &answers).unwrap();
    println!("seed {seed}: {CALLS} calls in {} bytes, answers in {}; largest tree {largest}", calls.len(), answers.len());
    kinds.iter().for_each(|(kind, times)| println!("{times:4} {kind}"));
}
