//! Restores in which several checks fail at once, and restores into changed and cut blocks: 1, 2, 3, the first faulty line, 5 in
//! this order. No word has then changed, and the line's number is 0 beside 1, 2, 3 and 5.

use super::asked::refusal;
use super::met::Met;
use super::planted::{deciding, entries, line, Flaw, Flaws};
use crate::call::{Call, Reply};
use crate::exports;
use crate::history::{same_words, Keys, Mix};
use crate::parts::room::filled;
use crate::parts::uneven::{self, Lean};
use crate::parts::{checks, damage, Compared};
use crate::plain;
use crate::random::Random;
use crate::restore;
use crate::rules::Supply;
use crate::sound;
use crate::table::Table;
use std::collections::BTreeSet;

#[derive(Clone, Copy, PartialEq, Eq, PartialOrd, Ord, Debug)]
enum Check {
    Shape,
    Sound,
    Version,
    Lines(Flaw),
    Room,
}

use Check::*;

const CHECKS: [Check; 7] = [Shape, Sound, Version, Lines(Flaw::Malformed), Lines(Flaw::Zero), Lines(Flaw::Order), Room];

type Fails = BTreeSet<Check>;

/// A text with the flaws that are to be, on one line or each on its own, and the refusal that they come to.
fn text(random: &mut Random, fails: &Fails) -> (Vec<u8>, Option<Reply>) {
    let count = 4 + random.below(5);
    let good = entries(random, count);
    let wanted: Flaws = fails.iter().filter_map(|check| if let Lines(flaw) = check { Some(*flaw) } else { None }).collect();
    let mut places: Vec<usize> = (1..count).collect();
    random.shuffle(&mut places);
    let flawed: Vec<(usize, Flaws)> = match random.once_in(2) {
        true => vec![(places[0], wanted)],
        false => wanted.into_iter().zip(places).map(|(flaw, at)| (at, [flaw].into())).collect(),
    };
    let mut text = restore::lines(&good);
    for (at, flaws) in &flawed {
        let faulty = line(random, &good, *at, flaws);
        text[restore::BYTES * at..restore::BYTES * (at + 1)].copy_from_slice(&faulty);
    }
    (text, deciding(&flawed).map(refusal))
}

/// Entries in one version, and room for the text or not.
fn table(random: &mut Random, version: u32, lines: usize, short: bool) -> Table {
    let mut table = Table::fresh(64);
    let keys: Vec<u32> = (0..20).filter(|_| random.once_in(3)).chain([20]).collect();
    table.versions[version as usize] = uneven::tree(random, &mut Supply::new(table.free()), &keys, Lean::Anyhow, 2);
    let left = if short { random.below(lines) } else { lines + random.below(3) };
    filled(random, &table, left)
}

/// Fails what is to fail, and nothing else.
fn case(random: &mut Random, fails: &Fails) -> Result<(), String> {
    let (text, faulty) = text(random, fails);
    let (version, lines) = (random.below(15) as u32, text.len() / restore::BYTES);
    let table = table(random, version, lines, fails.contains(&Room));
    let mut block = table.words();
    if fails.contains(&Sound) {
        checks::unsound(random, &mut block, version);
    }
    if fails.contains(&Shape) {
        checks::misshapen(random, &mut block);
    }
    let beyond = random.pick(&[16, 17, 31, 255, 256, 1 << 31, u32::MAX]);
    let version = if fails.contains(&Version) { beyond } else { version };
    let number = |number| Some(Reply { number, ..Reply::default() });
    let known = match fails.first() {
        Some(Shape) => number(1),
        Some(Sound) => number(2),
        Some(Version) => number(3),
        Some(Lines(_)) => faulty,
        Some(Room) => number(5),
        None => None,
    };
    judge(&table, block, Call::Restore { version, text: restore::Text(text) }, known)
}

/// A refusal that is known beforehand changes no word; where none is, the plain rules say what is restored.
fn judge(table: &Table, mut block: Vec<u32>, call: Call, known: Option<Reply>) -> Result<(), String> {
    let (mut table, mut told) = (table.clone(), block.clone());
    if known.is_none() {
        plain::answer(&mut table, &mut [], &call);
        told = table.words();
    }
    let expected = known.unwrap_or_default();
    let reply = exports::run(&mut block, &mut [], &call);
    if reply != expected {
        return Err(format!("{call:?}: {reply:?}, not {expected:?}"));
    }
    same_words("block", &told, &block)
}

pub fn every_pair(random: &mut Random, _: &mut Met) -> Compared {
    checks::every_pair(random, &CHECKS, case)
}

/// Any damage; into what is still sound the text must be restored.
pub fn damaged(random: &mut Random, met: &mut Met) -> Compared {
    let mix = Mix { versions: 1 + random.below(16), keys: Keys::Below(40), illegal: 6, large: 4 };
    let whole = damage::start(random, 64, mix)?;
    for _ in 0..30 {
        let mut block = whole.clone();
        damage::damage(random, &mut block);
        met.when(sound::check(&block) == 2, "damaged and refused");
        let version = mix.version(random);
        damage::compare(&block, &[], &mix.restore(random, version))?;
    }
    Ok(30)
}
