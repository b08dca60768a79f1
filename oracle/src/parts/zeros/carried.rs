//! Zeros in blocks made by hand: every call answers as for any other value, and every edit carries them.

use super::drawn;
use super::met::Met;
use crate::call::{Call, Reply};
use crate::frame::LINE;
use crate::parts::sums::site::{held, run, Site};
use crate::parts::sums::Map;
use crate::parts::Compared;
use crate::random::Random;
use crate::sound;

const LEFT: usize = 0;
const RIGHT: usize = 1;
const DEST: usize = 2;

/// Two versions that share no node, so that a listing leaves out nothing.
fn site(random: &mut Random) -> Result<Site, String> {
    let mut site = Site::fresh(128);
    for version in [LEFT, RIGHT] {
        let (lean, map) = (random.below(5), drawn(random, 20, 24));
        site.plant(random, version, lean, map);
    }
    match sound::check(&site.block) {
        0 => Ok(site),
        number => Err(format!("a block made by hand is {number}")),
    }
}

/// Left less right by a rule.
fn less(left: &Map, right: &Map, rule: u32) -> Map {
    let stays = |(&key, &value): (&u32, &u64)| match (right.get(&key).copied(), rule) {
        (None, _) | (_, 2) => Some((key, value)),
        (Some(other), 1) if value != other => Some((key, value)),
        (Some(other), 3) if value > other => Some((key, value - other)),
        _ => None,
    };
    left.iter().filter_map(stays).collect()
}

/// An edit on a copy of the block: what it answers, the destination's entries, and all else as it stood.
fn edited(site: &Site, call: &Call, fields: [u32; 2], dest: usize, expected: &Map) -> Result<(), String> {
    let mut block = site.block.clone();
    let reply = run(&mut block, call);
    let told = |what: String| format!("{call:?} on {:?} and {:?}: {what}", site.maps[LEFT], site.maps[RIGHT]);
    if reply != (Reply { fields, ..Reply::default() }) || sound::check(&block) != 0 {
        return Err(told(format!("{reply:?}, or a block that is not sound")));
    }
    let minutes = held(&mut block, dest);
    site.done(&mut block, dest, expected, minutes).map_err(told)
}

fn sets(site: &Site, met: &mut Met) -> Compared {
    let (left, right, zero) = (&site.maps[LEFT], &site.maps[RIGHT], |map: &Map| map.values().any(|&value| value == 0));
    edited(site, &Call::Copy { dest: DEST as u32, source: 0 }, [0; 2], DEST, left)?;
    met.when(zero(left), "copy carries 0");
    for rule in 0..5 {
        site.unite(site.free().len(), [DEST, LEFT, RIGHT], rule)?;
        let carried = |(key, value): (&u32, &u64)| *value == 0 && right.get(key).is_none_or(|&other| other == 0);
        met.when(left.iter().any(carried), format!("union {rule} carries 0"));
    }
    for (rule, cancel) in [(0, 0), (0, 1), (1, 0), (1, 1), (2, 0), (3, 0), (3, 1)] {
        let expected = less(left, right, rule);
        let call = Call::Difference { dest: DEST as u32, left: LEFT as u32, right: RIGHT as u32, rule, cancel };
        edited(site, &call, [0; 2], DEST, &expected)?;
        met.when(zero(&expected), format!("difference {rule} carries 0"));
    }
    Ok(13)
}

/// Every key is looked up, taken out, and put with another value.
fn keys(random: &mut Random, site: &Site, met: &mut Met) -> Compared {
    let (version, left) = (LEFT as u32, &site.maps[LEFT]);
    for (&key, &value) in left {
        let found = [1, value as u32];
        let told = run(&mut site.block.clone(), &Call::Lookup { version, key });
        if told != (Reply { fields: found, ..Reply::default() }) {
            return Err(format!("lookup of {key} in {left:?}: {told:?}"));
        }
        let (mut without, mut with, new) = (left.clone(), left.clone(), 1 + random.below(9) as u64);
        without.remove(&key);
        with.insert(key, new);
        edited(site, &Call::Remove { dest: version, source: version, key }, found, LEFT, &without)?;
        edited(site, &Call::Insert { dest: version, source: version, key, value: new as u32 }, found, LEFT, &with)?;
        ["lookup finds 0", "remove takes 0", "insert over 0"].iter().for_each(|&what| met.when(value == 0, what));
    }
    Ok(3 * left.len() as u64)
}

/// The rows are read off the maps.
fn listed(site: &Site, met: &mut Met) -> Compared {
    let (left, right) = (&site.maps[LEFT], &site.maps[RIGHT]);
    let row = |(&key, &value): (&u32, &u64)| {
        [key, value as u32, right.contains_key(&key) as u32, *right.get(&key).unwrap_or(&0) as u32]
    };
    let rows: Vec<[u32; 4]> = left.iter().map(row).collect();
    let call = Call::List { left: LEFT as u32, right: RIGHT as u32, start: 0, room: 4 * rows.len() };
    let reply = run(&mut site.block.clone(), &call);
    if reply.fields != [4 * rows.len() as u32, rows.len() as u32] || !reply.words.starts_with(&rows.concat()) {
        return Err(format!("listing of {left:?} against {right:?}: {reply:?}"));
    }
    met.when(rows.iter().any(|row| row[1] == 0), "listing has 0 at the left");
    met.when(rows.iter().any(|row| row[2..] == [1, 0]), "listing has 0 at the right");
    Ok(1)
}

/// The lines' last three fields: puts, then removes, or nothing at all.
fn changes(left: &Map, right: &Map) -> Vec<String> {
    let puts = right.iter().filter(|(key, value)| left.get(key) != Some(value));
    let removes = left.keys().filter(|key| !right.contains_key(key));
    let puts = puts.map(|(key, value)| format!("01{key:08x}{value:08x}"));
    let changes: Vec<String> = puts.chain(removes.map(|key| format!("02{key:08x}00000000"))).collect();
    if changes.is_empty() {
        vec!["0".repeat(18)]
    } else {
        changes
    }
}

fn framed(site: &Site, met: &mut Met) -> Compared {
    let (left, right) = (&site.maps[LEFT], &site.maps[RIGHT]);
    let changes = changes(left, right);
    let count = changes.len();
    let line = |(index, change): (usize, &String)| format!("00000007{index:04x}{count:04x}{change}\n");
    let lines: String = changes.iter().enumerate().map(line).collect();
    let call = Call::Frames { from: LEFT as u32, to: RIGHT as u32, batch: 7, start: 0, room: LINE * count };
    let reply = run(&mut site.block.clone(), &call);
    if reply.fields != [lines.len() as u32, count as u32] || !reply.bytes.starts_with(lines.as_bytes()) {
        return Err(format!("frames from {left:?} to {right:?}: {reply:?}"));
    }
    met.when(changes.iter().any(|change| change.starts_with("01") && change.ends_with("00000000")), "frames put 0");
    Ok(1)
}

pub fn every_call(random: &mut Random, met: &mut Met) -> Compared {
    let site = site(random)?;
    Ok(sets(&site, met)? + keys(random, &site, met)? + listed(&site, met)? + framed(&site, met)?)
}
