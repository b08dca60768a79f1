//! Blocks grown by the library's own calls.

use crate::blocks::{Block, Random};

unsafe extern "C" {
    fn ksk_insert(block: *mut u32, words: usize, dest: u32, source: u32, key: u32, value: u32, had: *mut u32, old: *mut u32) -> u32;
    fn ksk_remove(block: *mut u32, words: usize, dest: u32, source: u32, key: u32, had: *mut u32, old: *mut u32) -> u32;
    fn ksk_copy(block: *mut u32, words: usize, dest: u32, source: u32) -> u32;
}

fn insert(b: &mut [u32], version: u32, key: u32, value: u32) -> u32 {
    let (mut had, mut old) = (0, 0);
    unsafe { ksk_insert(b.as_mut_ptr(), b.len(), version, version, key, value, &mut had, &mut old) }
}

fn remove(b: &mut [u32], version: u32, key: u32) -> u32 {
    let (mut had, mut old) = (0, 0);
    unsafe { ksk_remove(b.as_mut_ptr(), b.len(), version, version, key, &mut had, &mut old) }
}

/// Any value but 0, which an insert refuses.
fn value(random: &mut Random) -> u32 {
    (random.next() as u32).max(1)
}

/// Version 0 with so many entries under random keys, of which `churn` came in the place of others.
pub fn entries(n: usize, count: usize, churn: usize, random: &mut Random) -> Block {
    let mut b = Block::fresh(n);
    let mut keys = vec![];
    for _ in 0..count {
        let key = random.next() as u32;
        assert_eq!(insert(&mut b.words, 0, key, value(random)), 0);
        keys.push(key);
    }
    for _ in 0..churn {
        let at = random.below(count);
        assert_eq!(remove(&mut b.words, 0, keys[at]), 0);
        keys[at] = random.next() as u32;
        assert_eq!(insert(&mut b.words, 0, keys[at], value(random)), 0);
    }
    b
}

/// Sixteen versions, each the one before it with some entries more: most nodes are shared.
pub fn versions(n: usize, count: usize, edits: usize, random: &mut Random) -> Block {
    let mut b = entries(n, count, count / 10, random);
    for version in 1..16 {
        assert_eq!(unsafe { ksk_copy(b.words.as_mut_ptr(), b.words.len(), version, version - 1) }, 0);
        for _ in 0..edits {
            if insert(&mut b.words, version, random.next() as u32, 3) != 0 {
                break;
            }
        }
    }
    b
}
