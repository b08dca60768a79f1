//! The small trees that document 01 works through, by its numbers.

use super::{Compared, Effort};
use crate::block::{length, Block};
use crate::call::{Call, Reply};
use crate::exports;
use crate::history::Trio;
use crate::plain::{NO_ROOM, TOO_DEEP, VERSION};
use crate::rules::{Supply, Tree};
use crate::table::Table;

fn expect<T: PartialEq + std::fmt::Debug>(what: &str, got: T, told: T) -> Result<(), String> {
    if got == told {
        Ok(())
    } else {
        Err(format!("{what}: {got:?}, document 01 says {told:?}"))
    }
}

/// Puts the keys in a version, with ten times the key as value.
fn put(trio: &mut Trio, version: u32, keys: &[u32]) -> Result<(), String> {
    put_pairs(trio, version, &keys.iter().map(|&key| (key, 10 * key)).collect::<Vec<_>>())
}

fn put_pairs(trio: &mut Trio, version: u32, pairs: &[(u32, u32)]) -> Result<(), String> {
    for &(key, value) in pairs {
        trio.step(&Call::Insert { dest: version, source: version, key, value })?;
    }
    Ok(())
}

/// A tree as text: key(left right), a dot for none.
fn drawn(trio: &Trio, link: u32) -> String {
    if link == 0 {
        return ".".into();
    }
    let node = Block(&trio.block).node(link);
    if node.size == 1 {
        format!("{}", node.key)
    } else {
        format!("{}({} {})", node.key, drawn(trio, node.left), drawn(trio, node.right))
    }
}

fn version(trio: &Trio, version: usize) -> String {
    drawn(trio, Block(&trio.block).root(version))
}

fn listed(trio: &mut Trio, left: u32, right: u32) -> Result<Vec<[u32; 4]>, String> {
    let reply = trio.step(&Call::List { left, right, start: 0, room: 4 * 32 })?;
    Ok(reply.words[..reply.fields[0] as usize].chunks_exact(4).map(|row| row.try_into().unwrap()).collect())
}

fn framed(trio: &mut Trio, from: u32, to: u32) -> Result<String, String> {
    let reply = trio.step(&Call::Frames { from, to, batch: 7, start: 0, room: 35 * 32 })?;
    Ok(String::from_utf8(reply.bytes[..reply.fields[0] as usize].to_vec()).unwrap())
}

fn chains_and_rotations() -> Result<(), String> {
    let mut trio = Trio::fresh(32);
    put(&mut trio, 0, &[1, 2, 3])?;
    expect("case 1", version(&trio, 0), "1(. 2(. 3))".into())?;
    put(&mut trio, 0, &[4])?;
    expect("case 2", (version(&trio, 0), Block(&trio.block).root(0)), ("2(1 3(. 4))".into(), 7))?;
    let mut trio = Trio::fresh(32);
    put(&mut trio, 0, &[1, 4, 3, 2])?;
    expect("case 3", version(&trio, 0), "3(1(. 2) 4)".into())
}

fn unions() -> Result<(), String> {
    for (rule, told) in [(0, 20), (1, 25), (2, 20), (3, 25), (4, 45)] {
        let mut trio = Trio::fresh(32);
        put(&mut trio, 0, &[1, 2])?;
        put_pairs(&mut trio, 1, &[(2, 25), (3, 30)])?;
        trio.step(&Call::Union { dest: 2, left: 0, right: 1, rule })?;
        let value = trio.step(&Call::Lookup { version: 2, key: 2 })?.fields[1];
        expect("case 4", (version(&trio, 2), value), ("2(1 3)".into(), told))?;
    }
    Ok(())
}

fn differences() -> Result<(), String> {
    for (rule, told) in [(0, vec![1]), (1, vec![1, 3]), (2, vec![1, 2, 3]), (3, vec![1])] {
        let mut trio = Trio::fresh(32);
        put(&mut trio, 0, &[1, 2, 3])?;
        put_pairs(&mut trio, 1, &[(2, 20), (3, 31)])?;
        trio.step(&Call::Difference { dest: 2, left: 0, right: 1, rule, cancel: 0 })?;
        expect("case 5", listed(&mut trio, 2, 15)?.iter().map(|row| row[0]).collect(), told)?;
    }
    Ok(())
}

fn listings() -> Result<(), String> {
    let mut trio = Trio::fresh(32);
    put(&mut trio, 0, &[1, 2, 3, 4])?;
    trio.step(&Call::Insert { dest: 1, source: 0, key: 4, value: 44 })?;
    expect("case 6", listed(&mut trio, 0, 1)?, vec![[2, 20, 1, 20], [3, 30, 1, 30], [4, 40, 1, 44]])?;
    expect("case 6", framed(&mut trio, 0, 1)?, "000000070000000101000000040000002c\n".into())?;
    put(&mut trio, 2, &[1, 2, 3, 4])?;
    expect("case 7", listed(&mut trio, 0, 2)?.iter().map(|row| row[2]).sum::<u32>(), 4)?;
    expect("case 7", framed(&mut trio, 0, 2)?, "0000000700000001000000000000000000\n".into())?;
    expect("case 8", (listed(&mut trio, 0, 0)?, listed(&mut trio, 15, 0)?), (vec![], vec![]))
}

/// A left chain of so many nodes, made by hand.
fn left_chain(nodes: u32) -> Trio {
    let mut table = Table::fresh(96);
    let mut supply = Supply::new(table.free());
    table.versions[0] = (1..=nodes).fold(None, |below: Tree, key| supply.make(key, key, below, None));
    Trio::of(table)
}

fn depths() -> Result<(), String> {
    for (nodes, told) in [(64, 0), (65, TOO_DEEP)] {
        let mut trio = left_chain(nodes);
        expect("case 9", trio.step(&Call::List { left: 0, right: 15, start: 0, room: 0 })?.number, told)?;
        expect("case 9", trio.step(&Call::Frames { from: 15, to: 0, batch: 0, start: 0, room: 0 })?.number, told)?;
        expect("a chain on the right", trio.step(&Call::List { left: 15, right: 0, start: 0, room: 0 })?.number, 0)?;
        expect("a chain against itself", trio.step(&Call::List { left: 0, right: 0, start: 0, room: 0 })?.number, 0)?;
    }
    Ok(())
}

/// Thirty-two nodes: a right chain of 1, 2, 3 and a filler that leaves four free, or three.
fn rooms() -> Result<(), String> {
    for (filler, told) in [(25, 0), (26, NO_ROOM)] {
        let mut table = Table::fresh(32);
        let mut supply = Supply::new(table.free());
        table.versions[0] = (1..=3).rev().fold(None, |below: Tree, key| supply.make(key, key, None, below));
        table.versions[1] = (1..=filler).fold(None, |below: Tree, key| supply.make(key, key, below, None));
        expect("case 10", Trio::of(table).step(&Call::Insert { dest: 0, source: 0, key: 4, value: 4 })?.number, told)?;
    }
    Ok(())
}

fn borders() -> Result<(), String> {
    let mut trio = Trio::fresh(32);
    for (version, told) in [(15, 0), (16, VERSION)] {
        expect("case 11", trio.step(&Call::Size { version })?, Reply { number: told, ..Reply::default() })?;
    }
    for (n, told) in [(4096, 0), (4128, 1)] {
        expect("case 11", exports::fresh(&mut vec![1; length(n)], n as u32), told)?;
    }
    let line = b"000000070000000101000000030000001f\n";
    expect("case 11", (exports::parse(line).0, exports::parse(&line[1..]).0), (0, 7))
}

pub fn worked(_: Effort) -> Compared {
    let cases = [chains_and_rotations, unions, differences, listings, depths, rooms, borders];
    cases.iter().try_for_each(|case| case())?;
    Ok(11)
}
