//! Document 01's "sound", as it is written there and without a thought for speed.

use crate::block::{length, Block};
use crate::frame::{heard, INBOX};

pub fn shaped(words: &[u32]) -> bool {
    let Some(&n) = words.first() else { return false };
    (32..=4096).contains(&n) && n % 32 == 0 && words.len() == length(n as usize)
}

fn link_ok(block: Block, link: u32) -> bool {
    link == 0 || link as usize <= block.n() && block.occupied(link)
}

fn size(block: Block, link: u32) -> u64 {
    if link == 0 {
        0
    } else {
        block.node(link).size as u64
    }
}

/// In more bits than three stored sums can need.
fn sum(block: Block, link: u32) -> u128 {
    if link == 0 {
        0
    } else {
        block.node(link).sum as u128
    }
}

fn node_ok(block: Block, number: u32) -> bool {
    let node = block.node(number);
    if !block.occupied(number) {
        return [node.key, node.value, node.left, node.right, node.size, node.count] == [0; 6] && node.sum == 0;
    }
    link_ok(block, node.left)
        && link_ok(block, node.right)
        && node.size as u64 == 1 + size(block, node.left) + size(block, node.right)
        && node.sum as u128 == node.value as u128 + sum(block, node.left) + sum(block, node.right)
}

/// Whether each key below a link lies between the bounds. Sizes fall along links by now, so this ends.
fn between(block: Block, link: u32, least: u64, most: u64) -> bool {
    if link == 0 {
        return true;
    }
    let node = block.node(link);
    let key = node.key as u64 + 1;
    least < key && key < most && between(block, node.left, least, key) && between(block, node.right, key, most)
}

fn numbers(block: Block) -> impl Iterator<Item = u32> {
    1..=block.n() as u32
}

fn linked(block: Block) -> bool {
    (0..16).all(|version| link_ok(block, block.root(version))) && numbers(block).all(|number| node_ok(block, number))
}

fn ordered(block: Block) -> bool {
    numbers(block).filter(|&number| block.occupied(number)).all(|number| between(block, number, 0, 1 << 33))
}

fn counted(block: Block) -> bool {
    let mut counts = vec![0; block.n() + 1];
    (0..16).for_each(|version| counts[block.root(version) as usize] += 1);
    for node in numbers(block).map(|number| block.node(number)) {
        counts[node.left as usize] += 1;
        counts[node.right as usize] += 1;
    }
    numbers(block).all(|number| {
        let count = block.node(number).count;
        count == counts[number as usize] && (count >= 1) == block.occupied(number)
    })
}

/// Links first, so that the other two stay in bounds and end.
fn sound(block: Block) -> bool {
    linked(block) && ordered(block) && counted(block)
}

/// 1 SHAPE, 2 DAMAGED, 0 neither.
pub fn check(words: &[u32]) -> u32 {
    if !shaped(words) {
        1
    } else if !sound(Block(words)) {
        2
    } else {
        0
    }
}

pub fn check_inbox(inbox: &[u32]) -> u32 {
    if inbox.len() != INBOX {
        1
    } else if inbox[1] > 4096 || (inbox[1]..4096).any(|index| heard(inbox, index)) {
        2
    } else {
        0
    }
}
