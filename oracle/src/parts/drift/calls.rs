//! Versions that the table's own calls made. Where one is the other after a chosen edit, the answer is known from the edit.

use super::asked::ask;
use super::kinds::entries;
use super::met::Met;
use crate::call::Call;
use crate::history::{Keys, Mix, Trio};
use crate::parts::Compared;
use crate::random::Random;

/// What becomes of a copy.
#[derive(Clone, Copy, Debug)]
enum Edit {
    Nothing,
    /// A new key goes in and out again: the same entries under other nodes.
    InAndOut,
    /// The same entries, put in another order into an empty version.
    Anew,
    Value,
    Removed,
    New,
    Cleared,
}

use Edit::*;

const EDITS: [Edit; 7] = [Nothing, InAndOut, Anew, Value, Removed, New, Cleared];

const BASE: u32 = 0;
const COPY: u32 = 1;

/// Odd keys, so that there is a new one on either side of each.
fn base(random: &mut Random) -> Result<Trio, String> {
    let n = random.pick(&[1024, 2016]);
    let mut trio = Trio::fresh(n);
    let most = random.pick(&[1, 2, 3, 20, 60]);
    let mut keys: Vec<u32> = (0..1 + random.below(most) as u32).map(|i| 2 * i + 1).collect();
    random.shuffle(&mut keys);
    for key in keys {
        trio.step(&Call::Insert { dest: BASE, source: BASE, key, value: 1 + random.below(2) as u32 })?;
    }
    Ok(trio)
}

/// The calls of an edit at an entry.
fn calls(random: &mut Random, all: &[(u32, u32)], edit: Edit, (key, value): (u32, u32)) -> Vec<Call> {
    let put = |key, value| Call::Insert { dest: COPY, source: COPY, key, value };
    let remove = |key| Call::Remove { dest: COPY, source: COPY, key };
    let beside = key - 1 + 2 * random.below(2) as u32;
    match edit {
        Nothing => vec![],
        InAndOut => vec![put(beside, value), remove(beside)],
        Anew => {
            let mut all = all.to_vec();
            random.shuffle(&mut all);
            [Call::Clear { version: COPY }].into_iter().chain(all.iter().map(|&(key, value)| put(key, value))).collect()
        }
        Value => vec![put(key, value + 1)],
        Removed => vec![remove(key)],
        New => vec![put(beside, value)],
        Cleared => vec![Call::Clear { version: COPY }],
    }
}

/// Each edit at the first entry, at one between and at the last; asked both ways, and of each version with itself.
pub fn made(random: &mut Random, met: &mut Met) -> Compared {
    let mut trio = base(random)?;
    let all: Vec<(u32, u32)> = entries(&trio.table.versions[BASE as usize]).into_iter().collect();
    let mut compared = 0;
    for at in [0, random.below(all.len()), all.len() - 1] {
        for edit in EDITS {
            trio.step(&Call::Copy { dest: COPY, source: BASE })?;
            for call in calls(random, &all, edit, all[at]) {
                trio.step(&call)?;
            }
            let same = matches!(edit, Nothing | InAndOut | Anew) as u32;
            for (from, to, same) in [(BASE, COPY, same), (COPY, BASE, same), (BASE, BASE, 1), (COPY, COPY, 1)] {
                let told = ask(&mut trio, from, to, met)?;
                if told != [0, same] {
                    return Err(format!("{edit:?} at {:?}, from {from} to {to}: {told:?}", all[at]));
                }
                compared += 1;
            }
        }
    }
    Ok(compared)
}

/// Any edits, and then any two versions; few keys and values, so that equal versions occur.
pub fn history(random: &mut Random, met: &mut Met) -> Compared {
    let n = 32 * (1 + random.below(4));
    let mix = Mix { versions: 2 + random.below(5), keys: Keys::Below(1 + random.below(12)), illegal: usize::MAX, large: 1000 };
    let mut trio = Trio::fresh(n);
    for _ in 0..60 {
        trio.step(&mix.edit(random))?;
        ask(&mut trio, random.below(mix.versions) as u32, random.below(mix.versions) as u32, met)?;
    }
    Ok(60)
}
