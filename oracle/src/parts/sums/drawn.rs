//! Versions drawn at random: keys, values around the limit, and the blocks that hold them.

use super::site::{listed, Site};
use super::{Map, LIMIT};
use crate::random::Random;
use std::collections::BTreeSet;

/// Values at which a sum may go either way.
pub fn edge(random: &mut Random) -> u64 {
    let drawn = random.word() as u64;
    random.pick(&[0, 1, 2, (1 << 31) - 1, 1 << 31, (1 << 31) + 1, LIMIT - 1, LIMIT, drawn])
}

/// How the values of a common key lie to the limit.
#[derive(Clone, Copy)]
enum Mood {
    Small,
    Limit,
    Above,
    Any,
}

const MOODS: [&[Mood]; 6] = [
    &[Mood::Small],
    &[Mood::Small, Mood::Small, Mood::Limit],
    &[Mood::Limit],
    &[Mood::Small, Mood::Any],
    &[Mood::Small, Mood::Limit, Mood::Above],
    &[Mood::Any],
];

fn pair(random: &mut Random, mood: Mood) -> (u64, u64) {
    let edge_here = edge(random);
    match mood {
        Mood::Small => (random.below(3) as u64, random.below(100) as u64),
        Mood::Limit => (edge_here, LIMIT - edge_here),
        Mood::Above => (edge_here.max(1), LIMIT + 1 - edge_here.max(1)),
        Mood::Any => (edge_here, edge(random)),
    }
}

/// Unlike keys in no order: close together, anywhere, or at both ends.
pub fn keys(random: &mut Random, count: usize) -> Vec<u32> {
    let (mut keys, manner) = (BTreeSet::new(), random.below(3));
    while keys.len() < count {
        let near = random.below(3 * count) as u32;
        keys.insert([near, random.word(), random.pick(&[near, u32::MAX - near])][manner]);
    }
    let mut keys: Vec<u32> = keys.into_iter().collect();
    random.shuffle(&mut keys);
    keys
}

/// Two maps with none to all of their keys in common; sometimes one common key alone is above the limit.
fn two(random: &mut Random, most: usize) -> [Map; 2] {
    let sizes = [random.below(most + 1), random.below(most + 1)];
    let least = sizes[0].min(sizes[1]);
    let drawn = random.below(least + 1);
    let common = random.pick(&[0, least, drawn, drawn]);
    let (moods, alone, wide) = (random.pick(&MOODS), random.once_in(3), random.once_in(3));
    let mut maps = [Map::new(), Map::new()];
    for (at, key) in keys(random, sizes[0] + sizes[1] - common).into_iter().enumerate() {
        let mood = if alone && at == 0 { Mood::Above } else { random.pick(moods) };
        let single = if wide { edge(random) } else { random.below(9) as u64 };
        let (left, right) = if at < common { pair(random, mood) } else { (single, single) };
        if at < sizes[0] {
            maps[0].insert(key, left);
        }
        if at < common || at >= sizes[0] {
            maps[1].insert(key, right);
        }
    }
    maps
}

/// A version of keys of the first two; with the first it often comes to the limit exactly.
fn third(random: &mut Random, site: &Site, most: usize) -> Map {
    let keys = site.maps[0].iter().chain(&site.maps[1]).take(most);
    let mut other = |value: u64| random.pick(&[LIMIT - value, LIMIT - value, 0, 1]);
    keys.map(|(&key, &value)| (key, other(value))).collect()
}

/// Versions 0 and 1 drawn, 2 an edited copy of version 0, 3 by hand: all of them sound and as kept.
pub fn site(random: &mut Random, n: usize) -> Result<Site, String> {
    let mut site = Site::fresh(n);
    let most = n / random.pick(&[5, 6, 8, 20]);
    for (version, map) in two(random, most).into_iter().enumerate() {
        site.build(random, version, map);
    }
    site.copy(2, 0);
    let known: Vec<u32> = site.maps[0].keys().copied().chain([3]).collect();
    for _ in 0..random.below(6) {
        let (key, value) = (random.pick(&known), edge(random));
        match random.below(3) {
            0 => site.remove(2, key),
            1 => site.put(2, key, value),
            _ => site.put(2, random.word(), 1),
        }
    }
    let map = third(random, &site, (n / 8).min(site.free().len()));
    let lean = random.below(5);
    site.plant(random, 3, lean, map);
    match (0..16).find(|&version| !listed(&mut site.block, version, &site.maps[version])) {
        None => Ok(site),
        Some(version) => Err(format!("version {version} is not {:?}", site.maps[version])),
    }
}
