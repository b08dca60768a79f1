//! Questions in which several checks fail at once, and questions about changed and cut blocks: 1, 2, 3 and 6 in this order. The
//! answer is then 0 and no word has changed.

use super::met::Met;
use crate::call::{Call, Reply};
use crate::exports;
use crate::history::{same_words, Keys, Mix};
use crate::parts::uneven::{self, Lean};
use crate::parts::{checks, damage, Compared};
use crate::random::Random;
use crate::rules::Supply;
use crate::table::Table;
use std::cell::RefCell;
use std::collections::BTreeSet;

#[derive(Clone, Copy, PartialEq, Eq, PartialOrd, Ord, Debug)]
enum Check {
    Shape,
    Sound,
    From,
    To,
    Deep,
}

use Check::*;

const CHECKS: [(Check, u32); 5] = [(Shape, 1), (Sound, 2), (From, 3), (To, 3), (Deep, 6)];

type Fails = BTreeSet<Check>;

/// Fails what is to fail, and nothing else. What does not fail is asked of a version and itself, and is yes.
fn case(random: &mut Random, fails: &Fails, met: &mut Met) -> Result<(), String> {
    let versions = [random.below(8) as u32, 8 + random.below(8) as u32];
    let mut table = Table::fresh(random.pick(&[160, 256]));
    let keys: Vec<u32> = (0..65 + random.below(10) as u32).collect();
    let mut supply = Supply::new(table.free());
    for version in versions {
        table.versions[version as usize] = uneven::tree(random, &mut supply, &keys, Lean::Left, usize::MAX);
    }
    let [deep, other] = versions;
    let mut block = table.words();
    if fails.contains(&Sound) {
        checks::unsound(random, &mut block, other);
    }
    if fails.contains(&Shape) {
        checks::misshapen(random, &mut block);
    }
    let beyond = random.pick(&[16, 17, 31, 255, 256, 1 << 31, u32::MAX]);
    let from = if fails.contains(&From) { beyond } else { deep };
    let to = match (fails.contains(&To), fails.contains(&Deep)) {
        (true, _) => random.pick(&[16, beyond]),
        (false, true) => other,
        (false, false) => deep,
    };
    let number = CHECKS.iter().find(|(check, _)| fails.contains(check)).map_or(0, |&(_, number)| number);
    [(1, "1"), (2, "2"), (3, "3")].into_iter().for_each(|(refused, name)| met.when(number == refused, name));
    judge(block, Call::Same { from, to }, number)
}

fn judge(mut block: Vec<u32>, call: Call, number: u32) -> Result<(), String> {
    let entry = block.clone();
    let reply = exports::run(&mut block, &mut [], &call);
    let expected = Reply { number, fields: [(number == 0) as u32, 0], ..Reply::default() };
    if reply != expected {
        return Err(format!("{call:?}: {reply:?}, not {expected:?}"));
    }
    same_words("block", &entry, &block)
}

pub fn every_pair(random: &mut Random, met: &mut Met) -> Compared {
    let met = RefCell::new(met);
    checks::every_pair(random, &CHECKS.map(|(check, _)| check), |random, fails| case(random, fails, *met.borrow_mut()))
}

/// Any damage; what is still sound must be answered.
pub fn damaged(random: &mut Random, _: &mut Met) -> Compared {
    let mix = Mix { versions: 1 + random.below(16), keys: Keys::Below(40), illegal: 6, large: 4 };
    let whole = damage::start(random, 64, mix)?;
    for _ in 0..30 {
        let mut block = whole.clone();
        damage::damage(random, &mut block);
        damage::compare(&block, &[], &Call::Same { from: mix.version(random), to: mix.version(random) })?;
    }
    Ok(30)
}
