//! The calls of this part. Blocks are given to change even where they are lent read only, so that a change would be seen.

use crate::exports::{
    ksk_clear, ksk_copy, ksk_difference, ksk_held, ksk_held_between, ksk_insert, ksk_list, ksk_remove, ksk_size, ksk_union,
};

/// What stands in a field before a call.
const MARK: u64 = 0xdead_beef_0bad_cafe;

/// A question about minutes: all of a version's, or those from a first key to a last.
#[derive(Clone, Copy, Debug)]
pub struct Question {
    pub version: u32,
    pub ends: Option<(u32, u32)>,
}

/// The number and the minutes.
pub fn held(block: &mut [u32], question: Question) -> (u32, u64) {
    let (pointer, words, mut minutes) = (block.as_mut_ptr(), block.len(), MARK);
    let number = unsafe {
        match question.ends {
            None => ksk_held(pointer, words, question.version, &mut minutes),
            Some((first, last)) => ksk_held_between(pointer, words, question.version, first, last, &mut minutes),
        }
    };
    (number, minutes)
}

pub fn size(block: &mut [u32], version: u32) -> (u32, u32) {
    let mut size = MARK as u32;
    let number = unsafe { ksk_size(block.as_mut_ptr(), block.len(), version, &mut size) };
    (number, size)
}

/// The number, whether the key stood there, and its old value.
pub fn insert(block: &mut [u32], dest: u32, source: u32, key: u32, value: u32) -> (u32, u32, u32) {
    let (mut had, mut old) = (MARK as u32, MARK as u32);
    let number = unsafe { ksk_insert(block.as_mut_ptr(), block.len(), dest, source, key, value, &mut had, &mut old) };
    (number, had, old)
}

pub fn remove(block: &mut [u32], dest: u32, source: u32, key: u32) -> u32 {
    let (mut had, mut old) = (0, 0);
    unsafe { ksk_remove(block.as_mut_ptr(), block.len(), dest, source, key, &mut had, &mut old) }
}

pub fn copy(block: &mut [u32], dest: u32, source: u32) -> u32 {
    unsafe { ksk_copy(block.as_mut_ptr(), block.len(), dest, source) }
}

pub fn clear(block: &mut [u32], version: u32) -> u32 {
    unsafe { ksk_clear(block.as_mut_ptr(), block.len(), version) }
}

pub fn union(block: &mut [u32], dest: u32, left: u32, right: u32, rule: u32) -> u32 {
    unsafe { ksk_union(block.as_mut_ptr(), block.len(), dest, left, right, rule) }
}

pub fn difference(block: &mut [u32], dest: u32, left: u32, right: u32, rule: u32, cancel: u32) -> u32 {
    unsafe { ksk_difference(block.as_mut_ptr(), block.len(), dest, left, right, rule, cancel) }
}

/// The whole listing of a version against an empty one, as keys and values; four words an entry.
pub fn list(block: &mut [u32], version: u32, empty: u32) -> Result<Vec<(u32, u32)>, u32> {
    let mut out = vec![0; 4 * block[0] as usize];
    let (mut written, mut total) = (0, 0);
    let number = unsafe {
        let (pointer, words) = (block.as_mut_ptr(), block.len());
        ksk_list(pointer, words, version, empty, 0, out.as_mut_ptr(), out.len(), &mut written, &mut total)
    };
    if number != 0 {
        return Err(number);
    }
    out.truncate(written as usize);
    Ok(out.chunks_exact(4).map(|row| (row[0], row[1])).collect())
}
