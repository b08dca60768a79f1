//! Faulty lines: each fault alone at each line, and several lines and faults at once. The first faulty line decides, and on one
//! line 17 goes before 13 and 13 before 18; the room, which comes after, is sometimes short.

use super::asked::{refusal, restore};
use super::met::Met;
use super::planted::{deciding, entries, line, with_line, wrong_byte, Flaw, Flaws, FLAWS};
use crate::history::Trio;
use crate::parts::room::filled;
use crate::parts::{uneven, Compared};
use crate::random::Random;
use crate::restore::{self, Entry, Fault, BYTES};

/// A block with some versions; room for a text of so many lines is short or not.
fn site(random: &mut Random, lines: usize, short: bool) -> Trio {
    let table = uneven::table(random, 64, 3, 20);
    let free = table.free().len();
    let left = if short { random.below(lines.min(free)) } else { free };
    Trio::of(filled(random, &table, left))
}

/// The text is refused with this fault, and no word has changed.
fn refuses(trio: &mut Trio, version: u32, text: &[u8], fault: Fault) -> Result<(), String> {
    let entry = trio.block.clone();
    let reply = restore(trio, version, text)?;
    if reply != refusal(fault) || trio.block != entry {
        return Err(format!("{:?}: {reply:?}, not {fault:?}, or changed words", String::from_utf8_lossy(text)));
    }
    Ok(())
}

/// One flaw at a line, a malformed one at each of its bytes.
fn flawed(random: &mut Random, entries: &[Entry], at: usize, flaw: Flaw) -> Vec<Vec<u8>> {
    if flaw != Flaw::Malformed {
        return vec![with_line(entries, at, &line(random, entries, at, &[flaw].into()))];
    }
    let with_byte = |place: usize| {
        let mut text = restore::lines(entries);
        text[BYTES * at + place] = wrong_byte(random, place);
        text
    };
    (0..BYTES).map(with_byte).collect()
}

/// Each flaw at each line of a text, and each short piece behind it.
pub fn each_line(random: &mut Random, met: &mut Met) -> Compared {
    let (count, version) = (1 + random.below(7), random.below(4) as u32);
    let (entries, short) = (entries(random, count), random.once_in(2));
    let mut trio = site(random, count, short);
    let mut compared = 0;
    for at in 0..count {
        for flaw in FLAWS.into_iter().filter(|&flaw| flaw != Flaw::Order || at > 0) {
            for text in flawed(random, &entries, at, flaw) {
                refuses(&mut trio, version, &text, Fault { number: flaw.number(), line: at as u64 })?;
                compared += 1;
            }
            met.when(flaw == Flaw::Zero && at == 0, "13 on the first line");
            met.when(flaw == Flaw::Zero && at + 1 == count, "13 on the last line");
            met.when(flaw == Flaw::Order && at + 1 == count, "18 on the last line");
        }
    }
    for bytes in 1..BYTES {
        let next = restore::lines(&[(u32::MAX, 1)]);
        let text = [&restore::lines(&entries), &next[..bytes]].concat();
        refuses(&mut trio, version, &text, Fault { number: 17, line: count as u64 })?;
        compared += 1;
    }
    Ok(compared)
}

/// Some of the three; the first line has none before it.
fn flaws(random: &mut Random, at: usize) -> Flaws {
    let one = random.below(3);
    let some = FLAWS.into_iter().enumerate().filter(|&(which, _)| which == one || random.once_in(3));
    some.map(|(_, flaw)| flaw).filter(|&flaw| flaw != Flaw::Order || at > 0).collect()
}

/// Up to four lines of a text become faulty; what the first of them has decides.
pub fn several(random: &mut Random, met: &mut Met) -> Compared {
    let (count, version) = (2 + random.below(8), random.below(4) as u32);
    let (good, short) = (entries(random, count), random.once_in(2));
    let mut text = restore::lines(&good);
    let mut flawed: Vec<(usize, Flaws)> = vec![];
    for _ in 0..1 + random.below(4) {
        let at = random.below(count);
        let some = flaws(random, at);
        if flawed.iter().all(|(line, _)| *line != at) && !some.is_empty() {
            let faulty = line(random, &good, at, &some);
            text[BYTES * at..BYTES * (at + 1)].copy_from_slice(&faulty);
            flawed.push((at, some));
        }
    }
    let Some(fault) = deciding(&flawed) else { return Ok(0) };
    flawed.sort();
    note(&flawed, &good, &text, met);
    met.when(short, "a fault where room is short");
    refuses(&mut site(random, count, short), version, &text, fault)?;
    Ok(1)
}

/// What stood on the first faulty line, and what later.
fn note(flawed: &[(usize, Flaws)], good: &[Entry], text: &[u8], met: &mut Met) {
    let (at, first) = &flawed[0];
    let [malformed, zero, order] = FLAWS.map(|flaw| first.contains(&flaw));
    met.when(malformed && zero && !order, "17 beside 13 on one line");
    met.when(malformed && order && !zero, "17 beside 18 on one line");
    met.when(zero && order && !malformed, "13 beside 18 on one line");
    met.when(malformed && zero && order, "all three on one line");
    let later = |flaw| flawed[1..].iter().any(|(_, flaws)| flaws.contains(&flaw));
    met.when(zero && !malformed && later(Flaw::Malformed), "17 on a later line than 13");
    met.when(first.len() == 1 && order && later(Flaw::Malformed), "17 on a later line than 18");
    met.when(first.len() == 1 && order && later(Flaw::Zero), "13 on a later line than 18");
    if first.len() == 1 && order {
        let before = format!("{:08x}", good[at - 1].0);
        let equal = text[BYTES * at..].starts_with(before.as_bytes());
        met.when(equal, "18 for an equal key");
        met.when(!equal, "18 for a smaller key");
    }
}
