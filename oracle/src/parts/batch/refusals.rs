//! Batches in which several checks fail at once, and slices of every length: 16 goes after both versions and is looked for in
//! the whole slice before 13 is; room comes last. A refused batch changes no word.

use super::met::Met;
use crate::batch::MOST;
use crate::call::{Call, Reply};
use crate::exports;
use crate::history::same_words;
use crate::parts::room::filled;
use crate::parts::uneven::{self, Lean};
use crate::parts::{checks, Compared};
use crate::plain;
use crate::random::Random;
use crate::rules::Supply;
use crate::table::Table;
use std::cell::RefCell;
use std::collections::BTreeSet;

#[derive(Clone, Copy, PartialEq, Eq, PartialOrd, Ord, Debug)]
enum Check {
    Shape,
    Sound,
    Dest,
    Source,
    Edit,
    Zero,
    Room,
}

use Check::*;

const CHECKS: [(Check, u32); 7] = [(Shape, 1), (Sound, 2), (Dest, 3), (Source, 3), (Edit, 16), (Zero, 13), (Room, 5)];

type Fails = BTreeSet<Check>;

const KINDS: [u32; 9] = [0, 3, 4, 255, 256, 257, 258, 1 << 31, u32::MAX];

/// A few records, a put among them.
fn records(random: &mut Random) -> Vec<[u32; 3]> {
    let record = |random: &mut Random| [1 + random.below(2) as u32, random.below(20) as u32, 1 + random.below(9) as u32];
    let mut records: Vec<[u32; 3]> = (0..random.below(6)).map(|_| record(random)).collect();
    let at = random.below(records.len() + 1);
    records.insert(at, [1, random.below(20) as u32, 1]);
    records
}

/// Puts a record anywhere; gives its place.
fn slip(random: &mut Random, records: &mut Vec<[u32; 3]>, record: [u32; 3]) -> usize {
    let at = random.below(records.len() + 1);
    records.insert(at, record);
    at
}

/// The words of a batch that puts 0 or is none, or both.
fn edits(random: &mut Random, fails: &Fails, met: &mut Met) -> Vec<u32> {
    let (mut records, key) = (records(random), random.below(20) as u32);
    let zero = fails.contains(&Zero).then(|| slip(random, &mut records, [1, key, 0]));
    match (fails.contains(&Edit), random.below(3)) {
        (false, _) => {}
        (true, 0) => {
            let strange = [random.pick(&KINDS), key, random.below(2) as u32];
            let at = slip(random, &mut records, strange);
            met.when(true, "16 for a kind");
            met.when(zero.is_some_and(|zero| zero < at), "16 for a kind after a put of 0");
            met.when(zero.is_some_and(|zero| zero >= at), "16 for a kind before a put of 0");
        }
        (true, 1) => {
            let count = random.pick(&[MOST + 1, MOST + 2, 2 * MOST, 2000]);
            records.resize(count, [2, key, 0]);
            met.when(zero.is_some(), "16 for a long slice that puts 0");
        }
        (true, _) => {
            let words = records.concat();
            met.when(true, "16 for a part of a record");
            return words[..words.len() - 1 - random.below(2)].to_vec();
        }
    }
    records.concat()
}

/// Fails what is to fail, and nothing else.
fn case(random: &mut Random, fails: &Fails, met: &mut Met) -> Result<(), String> {
    let [dest, source] = [random.below(4) as u32, random.below(4) as u32];
    let mut table = Table::fresh(96);
    let keys: Vec<u32> = (0..20).filter(|_| random.once_in(3)).chain([20]).collect();
    table.versions[source as usize] = uneven::tree(random, &mut Supply::new(table.free()), &keys, Lean::Anyhow, 2);
    if fails.contains(&Room) {
        table = filled(random, &table, 0);
    }
    let mut block = table.words();
    if fails.contains(&Sound) {
        checks::unsound(random, &mut block, source);
    }
    if fails.contains(&Shape) {
        checks::misshapen(random, &mut block);
    }
    let beyond = random.pick(&[16, 17, 255, 1 << 31, u32::MAX]);
    let dest = if fails.contains(&Dest) { beyond } else { dest };
    let source = if fails.contains(&Source) { beyond } else { source };
    let number = CHECKS.iter().find(|(check, _)| fails.contains(check)).map_or(0, |&(_, number)| number);
    judge(&table, block, Call::Batch { dest, source, edits: edits(random, fails, met) }, number)
}

/// The number, every word of the block, and the records as they were.
fn judge(table: &Table, mut block: Vec<u32>, call: Call, number: u32) -> Result<(), String> {
    let mut told = block.clone();
    if number == 0 {
        let mut table = table.clone();
        let reply = plain::answer(&mut table, &mut [], &call);
        if reply != Reply::default() {
            return Err(format!("the plain rules refuse {call:?}: {reply:?}"));
        }
        told = table.words();
    }
    let Call::Batch { dest, source, ref edits } = call else { unreachable!("a batch") };
    let (mut lent, mut again) = (edits.clone(), block.clone());
    let answer = exports::batch(&mut block, dest, source, &mut lent);
    if answer != number || lent != *edits || exports::run(&mut again, &mut [], &call).number != number {
        return Err(format!("{call:?}: {answer}, not {number}, or changed records"));
    }
    same_words("block", &told, &block)
}

pub fn every_pair(random: &mut Random, met: &mut Met) -> Compared {
    let met = RefCell::new(met);
    checks::every_pair(random, &CHECKS.map(|(check, _)| check), |random, fails| case(random, fails, *met.borrow_mut()))
}

/// Slices of no words up to some above 512 records: 16 but for whole records, at most 512 of them.
pub fn every_length(random: &mut Random, _: &mut Met) -> Compared {
    const LONGEST: usize = 3 * MOST + 30;
    let table = uneven::table(random, 64, 3, 40);
    let removes: Vec<u32> = (0..LONGEST as u32 / 3).flat_map(|at| [2, 40 + at % 7, at]).collect();
    for words in 0..=LONGEST {
        let whole = words % 3 == 0 && words <= 3 * MOST;
        let call = Call::Batch { dest: random.below(4) as u32, source: 0, edits: removes[..words].to_vec() };
        judge(&table, table.words(), call, if whole { 0 } else { 16 })?;
    }
    Ok(LONGEST as u64 + 1)
}
