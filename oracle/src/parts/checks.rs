//! Checks of a call that fail at once: which sets of them are tried, and blocks on which the first two fail.

use super::Compared;
use crate::block::{place, Block};
use crate::random::Random;
use std::collections::BTreeSet;
use std::fmt::Debug;

/// No check failing; then each check as the first one, each later one with it, and some more that come after the first.
/// The checks are in their order.
pub fn every_pair<C: Copy + Ord + Debug>(
    random: &mut Random,
    checks: &[C],
    case: impl Fn(&mut Random, &BTreeSet<C>) -> Result<(), String>,
) -> Compared {
    case(random, &BTreeSet::new())?;
    let mut compared = 1;
    for first in 0..checks.len() {
        for later in first..checks.len() {
            let more = checks[first..].iter().copied().filter(|_| random.once_in(6));
            let fails = more.chain([checks[first], checks[later]]).collect();
            case(random, &fails).map_err(|what| format!("where {fails:?} fail: {what}"))?;
            compared += 1;
        }
    }
    Ok(compared)
}

/// A wrong size, count or sum at the root of a version that is not empty.
pub fn unsound(random: &mut Random, block: &mut [u32], version: u32) {
    let words = Block(block);
    let root = place(words.n(), words.root(version as usize));
    block[root + random.pick(&[4, 5, 6, 7])] ^= 1 << random.below(32);
}

/// Another length or another N.
pub fn misshapen(random: &mut Random, block: &mut Vec<u32>) {
    match random.below(3) {
        0 => block.push(0),
        1 => block.truncate(random.below(block.len())),
        _ => block[0] = random.pick(&[0, 31, 33, block[0] - 32, block[0] + 1, block[0] + 32, 4128, u32::MAX]),
    }
}
