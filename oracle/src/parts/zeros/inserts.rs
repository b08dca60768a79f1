//! Inserts in which several checks fail at once: 13 goes after both versions and before room.

use super::drawn;
use super::met::Met;
use crate::call::{Call, Reply};
use crate::exports;
use crate::parts::checks;
use crate::parts::sums::site::Site;
use crate::parts::sums::Map;
use crate::parts::Compared;
use crate::random::Random;
use std::cell::RefCell;
use std::collections::BTreeSet;

#[derive(Clone, Copy, PartialEq, Eq, PartialOrd, Ord, Debug)]
enum Check {
    Shape,
    Sound,
    Dest,
    Source,
    Zero,
    Room,
}

use Check::*;

const CHECKS: [(Check, u32); 6] = [(Shape, 1), (Sound, 2), (Dest, 3), (Source, 3), (Zero, 13), (Room, 5)];

/// Two versions that may be one, the source not empty.
fn site(random: &mut Random, source: usize) -> Site {
    let mut site = Site::fresh(96);
    let lean = random.below(5);
    let map = drawn(random, 12, 16).into_iter().chain([(random.below(16) as u32, 0)]).collect();
    site.plant(random, source, lean, map);
    site
}

/// Fails what is to fail, and nothing else.
fn case(random: &mut Random, fails: &BTreeSet<Check>, met: &mut Met) -> Result<(), String> {
    let [dest, source] = [random.below(4), random.below(4)];
    let site = site(random, source);
    let map: &Map = &site.maps[source];
    let mut block = if fails.contains(&Room) { site.filled(random, 0).block } else { site.block.clone() };
    if fails.contains(&Sound) {
        checks::unsound(random, &mut block, source as u32);
    }
    if fails.contains(&Shape) {
        checks::misshapen(random, &mut block);
    }
    let [no_dest, no_source] = [16, random.pick(&[17, 255, 1 << 31, u32::MAX])];
    let key = random.below(16) as u32;
    let call = Call::Insert {
        dest: if fails.contains(&Dest) { no_dest } else { dest as u32 },
        source: if fails.contains(&Source) { no_source } else { source as u32 },
        key,
        value: if fails.contains(&Zero) { 0 } else { 1 + random.below(9) as u32 },
    };
    let kept = block.clone();
    let reply = exports::run(&mut block, &mut [], &call);
    let number = CHECKS.iter().find(|(check, _)| fails.contains(check)).map_or(0, |&(_, number)| number);
    let old = map.get(&key).filter(|_| number == 0).copied();
    let expected = Reply { number, fields: [old.is_some() as u32, old.unwrap_or(0) as u32], ..Reply::default() };
    if reply != expected || number != 0 && block != kept {
        return Err(format!("{call:?} in {map:?}: {reply:?}, not {expected:?}, or changed words"));
    }
    met.when(number == 13 && !map.contains_key(&key), "13 for a new key");
    met.when(number == 13 && map.contains_key(&key), "13 for a known key");
    met.when(number == 13 && map.get(&key) == Some(&0), "13 for a key that holds 0");
    Ok(())
}

pub fn every_pair(random: &mut Random, met: &mut Met) -> Compared {
    let met = RefCell::new(met);
    checks::every_pair(random, &CHECKS.map(|(check, _)| check), |random, fails| case(random, fails, *met.borrow_mut()))
}
