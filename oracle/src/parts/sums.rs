//! Union rule 4 from the text of its request alone: the exact sum, or 14 where the sum of some common key does not fit a word.
//! Every version is kept as a plain map beside the block, and what is expected comes from these maps.

mod drawn;
pub mod site;

use super::{Compared, Effort};
use crate::block::{mark, place, Block};
use crate::call::Call;
use crate::random::Random;
use drawn::{keys, site};
use site::{run, Site};
use std::cell::Cell;
use std::collections::BTreeMap;

type Entry = (u32, u64);
pub type Map = BTreeMap<u32, u64>;

const LIMIT: u64 = 4_294_967_295;
const NO_ROOM: u32 = 5;
const SUM: u32 = 14;

/// A source without entries.
const EMPTY: usize = 14;

/// Some key of both has a sum above the limit.
fn exceeds(left: &Map, right: &Map) -> bool {
    left.iter().any(|(key, value)| right.get(key).is_some_and(|other| value + other > LIMIT))
}

fn at_limit(left: &Map, right: &Map) -> bool {
    left.iter().any(|(key, value)| right.get(key).is_some_and(|other| value + other == LIMIT))
}

fn united(left: &Map, right: &Map, rule: u32) -> Map {
    let mut all = left.clone();
    for (&key, &right) in right {
        let merge = |left: &mut u64| *left = [*left, right, right.min(*left), right.max(*left), right + *left][rule as usize];
        all.entry(key).and_modify(merge).or_insert(right);
    }
    all
}

/// The numbers that a union may answer. A made node holds a key of either side, so as many as both have are room enough.
fn allowed(left: &Map, right: &Map, rule: u32, free: usize) -> &'static [u32] {
    if rule == 4 && exceeds(left, right) {
        &[SUM]
    } else if left.is_empty() || right.is_empty() || free >= left.len() + right.len() {
        &[0]
    } else if free == 0 {
        &[NO_ROOM]
    } else {
        &[0, NO_ROOM]
    }
}

/// What must have been met by the end.
#[derive(Default)]
struct Met([Cell<u64>; 7]);

const WHAT: [&str; 7] =
    ["14 with room", "14 short of room", "14 without room", "0 at the limit", "5", "14 alone", "14 behind others"];

impl Met {
    fn when(&self, what: usize, met: bool) {
        self.0[what].set(self.0[what].get() + met as u64);
    }
}

const PAIRS: [(usize, usize); 9] = [(0, 1), (0, 1), (0, 2), (1, 2), (0, 3), (1, 3), (0, 0), (2, 2), (0, EMPTY)];

/// Every rule on two versions, one way round: room is asked for alike under all of them, but 14 goes before it.
fn rules(random: &mut Random, site: &Site, free: usize, left: usize, right: usize, met: &Met) -> Compared {
    let (a, b) = (&site.maps[left], &site.maps[right]);
    let roomy = site.unite(free, [random.below(13), left, right], 0)?;
    for rule in 1..4 {
        let dest = [left, right, random.below(13)][random.below(3)];
        if site.unite(free, [dest, left, right], rule)? != roomy {
            return Err(format!("rule {rule} asks for other room than rule 0: {left}, {right}, {free} free, {a:?} and {b:?}"));
        }
    }
    for dest in [left, right, random.below(13)] {
        let number = site.unite(free, [dest, left, right], 4)?;
        if number != SUM && number != roomy {
            return Err(format!("rule 4 asks for other room than rule 0: {left}, {right}, {free} free, {a:?} and {b:?}"));
        }
        met.when(0, number == SUM && roomy == 0);
        met.when(1, number == SUM && roomy == NO_ROOM && free > 0);
        met.when(2, number == SUM && roomy == NO_ROOM && free == 0);
        met.when(3, number == 0 && at_limit(a, b));
        met.when(4, number == NO_ROOM);
    }
    Ok(7)
}

/// Both ways round with all the room there is, some, little and none.
fn rooms(random: &mut Random, site: &Site, met: &Met) -> Compared {
    let free = site.free().len();
    let mut compared = 0;
    for room in [free, random.below(free + 1), random.below(12), 0] {
        let (room, site) = (room.min(free), site.filled(random, room));
        for _ in 0..2 {
            let (left, right) = random.pick(&PAIRS);
            compared += rules(random, &site, room, left, right, met)? + rules(random, &site, room, right, left, met)?;
        }
    }
    Ok(compared)
}

/// A refusal with this number, and every word as it was.
fn refused(mut block: Vec<u32>, call: &Call, number: u32) -> Result<(), String> {
    let kept = block.clone();
    let got = run(&mut block, call).number;
    if got == number && block == kept {
        Ok(())
    } else {
        Err(format!("{call:?}: {got}, not {number}, or changed words"))
    }
}

/// One word of an occupied node is wrong, or a free node is marked.
fn damage(random: &mut Random, block: &mut [u32]) {
    let number = 1 + random.below(block[0] as usize) as u32;
    let at = place(block[0] as usize, number) + random.pick(&[1, 4, 5, 6, 7]);
    let (word, bit) = mark(number);
    if Block(block).occupied(number) {
        block[at] = block[at].wrapping_add(1);
    } else {
        block[word] |= bit;
    }
}

/// A word too few or too many, or a wrong N.
fn cut(random: &mut Random, block: &mut Vec<u32>) {
    match random.below(3) {
        0 => block.truncate(block.len() - 1),
        1 => block.push(0),
        _ => block[0] = random.pick(&[0, 1, block[0] - 32, block[0] + 32, block[0] + 1, u32::MAX]),
    }
}

/// A sum that does not fit is told after an unknown rule, a version above 15, damage and a wrong shape, whatever the room.
fn behind(random: &mut Random, site: &Site, met: &Met) -> Compared {
    let (left, right) = random.pick(&PAIRS);
    let room = random.pick(&[0, 1, 5, site.block[0] as usize]);
    let site = site.filled(random, room);
    met.when(6, exceeds(&site.maps[left], &site.maps[right]));
    let mut named = [random.below(13) as u32, left as u32, right as u32];
    let union = |[dest, left, right]: [u32; 3], rule| Call::Union { dest, left, right, rule };
    let unknown = random.pick(&[5, 6, 14, 255, u32::MAX]);
    refused(site.block.clone(), &union(named, unknown), 4)?;
    let (whole, mut block, rule) = (named, site.block.clone(), random.pick(&[4, unknown]));
    named[random.below(3)] = random.pick(&[16, 17, 31, 256, u32::MAX]);
    refused(site.block, &union(named, rule), 3)?;
    damage(random, &mut block);
    let named = random.pick(&[whole, named]);
    refused(block.clone(), &union(named, rule), 2)?;
    cut(random, &mut block);
    refused(block, &union(named, rule), 1)?;
    Ok(4)
}

/// Many small values and one corrupt: its own key alone decides.
fn corrupt(random: &mut Random, met: &Met) -> Compared {
    let mut site = Site::fresh(32 * (6 + random.below(6)));
    let count = 4 + random.below(20);
    let keys = keys(random, count);
    for version in 0..2 {
        let map = keys.iter().map(|&key| (key, random.below(100) as u64)).collect();
        site.build(random, version, map);
    }
    let mut compared = 0;
    for key in keys {
        let value = LIMIT - random.below(60) as u64;
        site.copy(2, 0);
        site.put(2, key, value);
        site.copy(3, 1);
        for step in 0..3 {
            let own = value + site.maps[3].get(&key).unwrap_or(&0);
            for named in [[4, 2, 3], [4, 3, 2]] {
                let number = site.unite(site.free().len(), named, 4)?;
                if (number == SUM) != (own > LIMIT) {
                    return Err(format!("{number} where the corrupt key comes to {own}"));
                }
                met.when(5, number == SUM);
            }
            if step == 0 {
                site.put(3, key, LIMIT - value);
            } else {
                site.remove(3, key);
            }
        }
        compared += 6;
    }
    Ok(compared)
}

fn nodes(random: &mut Random) -> usize {
    match random.below(100) {
        0 if random.once_in(3) => 4096,
        0..=4 => 32 * (9 + random.below(24)),
        _ => 32 * (1 + random.below(8)),
    }
}

pub fn around_the_limit(effort: Effort) -> Compared {
    let met = Met::default();
    let compared = effort.each(1600, |random| {
        let n = nodes(random);
        let site = site(random, n)?;
        let mut compared = rooms(random, &site, &met)? + corrupt(random, &met)?;
        for _ in 0..4 {
            compared += behind(random, &site, &met)?;
        }
        Ok(compared)
    })?;
    match WHAT.iter().zip(&met.0).find(|(_, times)| times.get() == 0) {
        None => Ok(compared),
        Some((what, _)) => Err(format!("never met: {what}")),
    }
}
