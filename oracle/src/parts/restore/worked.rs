//! Restores worked out by hand from the text of document 02: the shape from the middle, and the number that each node takes.

use super::asked::restore;
use super::met::Met;
use crate::block::{place, Block, WIDTH};
use crate::call::Call;
use crate::history::Trio;
use crate::parts::Compared;
use crate::random::Random;
use crate::restore::{self, Entry};

fn lines(count: u32) -> Vec<u8> {
    let entries: Vec<Entry> = (0..count).map(|key| (key, key + 10)).collect();
    restore::lines(&entries)
}

/// A tree as text: number:key(left right), a dot for none.
fn drawn(block: Block, link: u32) -> String {
    if link == 0 {
        return ".".into();
    }
    let node = block.node(link);
    if node.size == 1 {
        format!("{link}:{}", node.key)
    } else {
        format!("{link}:{}({} {})", node.key, drawn(block, node.left), drawn(block, node.right))
    }
}

fn expect(trio: &Trio, version: usize, told: &str) -> Result<(), String> {
    let block = Block(&trio.block);
    let got = drawn(block, block.root(version));
    if got == told {
        Ok(())
    } else {
        Err(format!("{got} was restored, not {told}"))
    }
}

const SMALL: [&str; 9] = [
    ".",
    "1:0",
    "2:1(1:0 .)",
    "3:1(1:0 2:2)",
    "4:2(2:1(1:0 .) 3:3)",
    "5:2(2:1(1:0 .) 4:4(3:3 .))",
    "6:3(3:1(1:0 2:2) 5:5(4:4 .))",
    "7:3(3:1(1:0 2:2) 6:5(4:4 5:6))",
    "8:4(4:2(2:1(1:0 .) 3:3) 7:6(5:5 6:7))",
];

/// Zero to eight lines into a fresh block, and again over what stood: the old nodes are not free until the end.
fn small() -> Compared {
    for (count, told) in SMALL.iter().enumerate() {
        let mut trio = Trio::fresh(32);
        restore(&mut trio, 3, &lines(count as u32))?;
        expect(&trio, 3, told)?;
    }
    let mut trio = Trio::fresh(32);
    for told in ["3:1(1:0 2:2)", "6:1(4:0 5:2)", "3:1(1:0 2:2)"] {
        restore(&mut trio, 0, &lines(3))?;
        expect(&trio, 0, told)?;
    }
    Ok(12)
}

/// Numbers between those of another version, lowest first; and a copy keeps the nodes that the restore gives up.
fn beside() -> Compared {
    let mut trio = Trio::fresh(32);
    restore(&mut trio, 0, &lines(1))?;
    restore(&mut trio, 1, &lines(2))?;
    trio.step(&Call::Clear { version: 0 })?;
    restore(&mut trio, 0, &lines(3))?;
    expect(&trio, 0, "5:1(1:0 4:2)")?;
    trio.step(&Call::Copy { dest: 2, source: 0 })?;
    restore(&mut trio, 0, &lines(1))?;
    expect(&trio, 0, "6:0")?;
    expect(&trio, 2, "5:1(1:0 4:2)")?;
    restore(&mut trio, 2, &[])?;
    expect(&trio, 2, ".")?;
    expect(&trio, 1, "3:1(2:0 .)")?;
    for number in [1, 4, 5] {
        let at = place(32, number);
        if trio.block[at..at + WIDTH] != [0; WIDTH] {
            return Err(format!("node {number} was given up and is not empty"));
        }
    }
    Ok(7)
}

/// The line that document 01 prints, and both ends of keys and values.
fn ends() -> Compared {
    for (line, key, value) in [
        ("000000030000001f\n", 3, 31),
        ("0000000000000001\n", 0, 1),
        ("ffffffffffffffff\n", u32::MAX, u32::MAX),
        ("80000000a0b0c0d0\n", 1 << 31, 0xa0b0_c0d0),
    ] {
        let mut trio = Trio::fresh(32);
        restore(&mut trio, 15, line.as_bytes())?;
        let told = trio.step(&Call::Lookup { version: 15, key })?.fields;
        if told != [1, value] {
            return Err(format!("{line:?} is restored as {told:?}"));
        }
    }
    Ok(4)
}

pub fn all(_: &mut Random, _: &mut Met) -> Compared {
    Ok(small()? + beside()? + ends()?)
}
