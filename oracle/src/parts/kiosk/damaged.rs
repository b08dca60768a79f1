//! Damaged slices of every kind, and slices with changed words, under every call: 1 and 2 go before whatever else is wrong.

use super::alone::judge;
use super::met::Met;
use crate::frame::{Fault, Frame, INBOX};
use crate::kiosk::plain::{check, words, Entry, MOST, WORDS};
use crate::kiosk::Call;
use crate::parts::Compared;
use crate::plain::{NO_ROOM, ZERO};
use crate::random::Random;
use std::collections::BTreeSet;

const BATCH: u32 = 7;

fn inbox() -> Vec<u32> {
    let mut inbox = vec![0; INBOX];
    inbox[0] = BATCH;
    inbox
}

/// So many entries; some hold 0, and keys may be neighbours or stand at the ends.
fn entries(random: &mut Random, count: usize) -> Vec<Entry> {
    let mut keys: BTreeSet<u32> = [0, 1 << 31, u32::MAX].into_iter().filter(|_| random.once_in(3)).take(count).collect();
    let mask = random.pick(&[0x7f, 0x8000_00ff, u32::MAX]);
    while keys.len() < count {
        keys.insert(random.word() & mask);
    }
    keys.into_iter().map(|key| (key, random.pick(&[0, 1, 2, u32::MAX]))).collect()
}

/// A key that no entry has.
fn absent(random: &mut Random, entries: &[Entry]) -> u32 {
    loop {
        let key = random.word() & random.pick(&[0x7f, u32::MAX]);
        if entries.iter().all(|entry| entry.0 != key) {
            return key;
        }
    }
}

/// Calls, and the number that each is refused with where the slice is sound.
fn calls(random: &mut Random, entries: &[Entry]) -> Vec<(Call, u32)> {
    let (new, room) = (absent(random, entries), if entries.len() == MOST { NO_ROOM } else { 0 });
    let known = if entries.is_empty() { new } else { random.pick(entries).0 };
    let over = if entries.is_empty() { room } else { 0 };
    let line = |key, value| Frame { batch: BATCH, index: 3, count: 9, kind: 1, key, value }.line();
    let receive = |line| Call::Receive { line };
    vec![
        (Call::Lookup { key: known }, 0),
        (Call::Lookup { key: new }, 0),
        (Call::Insert { key: known, value: 5 }, over),
        (Call::Insert { key: new, value: 5 }, room),
        (Call::Insert { key: new, value: 0 }, ZERO),
        (Call::Remove { key: known }, 0),
        (Call::List { start: 0, room: 256 }, 0),
        (receive(line(new, 5)), room),
        (receive(line(new, 0)), ZERO),
        (receive(line(new, 5)[1..].to_vec()), 7),
    ]
}

/// A sound slice with each kind of damage at each of its places, and the number that it comes to.
fn damages(random: &mut Random, entries: &[Entry]) -> Vec<(Vec<u32>, u32)> {
    let (sound, count) = (words(entries), entries.len());
    let changed = |at: usize, word: u32| {
        let mut words = sound.clone();
        words[at] = word;
        (words, 2)
    };
    let mut all: Vec<(Vec<u32>, u32)> = vec![];
    for length in [0, 1, 2, WORDS - 2, WORDS - 1, WORDS + 1, WORDS + 2, 2 * WORDS] {
        let mut words = sound.clone();
        words.resize(length, 0);
        all.push((words, 1));
    }
    all.extend([65, 66, 128, 129, 1 << 16, 1 << 31, u32::MAX].map(|number| changed(0, number)));
    for at in 1..count {
        let (before, key) = (entries[at - 1].0, entries[at].0);
        all.push(changed(1 + 2 * at, before));
        all.push(changed(1 + 2 * at, before.saturating_sub(1)));
        all.push(changed(2 * at - 1, key));
    }
    all.extend((1 + 2 * count..WORDS).map(|at| changed(at, random.pick(&[1, 1 << 31, u32::MAX]))));
    if entries.last().is_some_and(|&last| last != (0, 0)) {
        all.push(changed(0, count as u32 - 1));
    }
    if (1..MOST).contains(&count) {
        all.push(changed(0, count as u32 + 1));
    }
    all
}

/// Every damage at some sizes, and no damage at all.
pub fn every_kind(random: &mut Random, met: &mut Met) -> Compared {
    let mut compared = 0;
    for count in [0, 1, 2, 3 + random.below(60), MOST - 1, MOST] {
        let entries = entries(random, count);
        let calls = calls(random, &entries);
        for (call, number) in &calls {
            let known = Fault { number: *number, place: 0 };
            let reply = judge(&words(&entries), &inbox(), call, (*number != 0).then_some(known), met)?;
            if reply.number != *number {
                return Err(format!("{call:?} in {entries:?}: {}, not {number}", reply.number));
            }
            met.when(matches!(call, Call::Lookup { .. }) && reply.fields == [1, 0], "a value of 0 found");
        }
        for (kiosk, number) in damages(random, &entries) {
            for (call, _) in &calls {
                judge(&kiosk, &inbox(), call, Some(Fault { number, place: 0 }), met)
                    .map_err(|what| format!("{kiosk:?}: {what}"))?;
                compared += 1;
            }
        }
    }
    Ok(compared)
}

/// A few words become others that may well be believed; what is still sound must be answered.
pub fn changed(random: &mut Random, met: &mut Met) -> Compared {
    let count = random.below(MOST + 1);
    let entries = entries(random, count);
    let calls = calls(random, &entries);
    for _ in 0..20 {
        let mut kiosk = words(&entries);
        for _ in 0..1 + random.below(2) {
            let at = if random.once_in(3) { 0 } else { random.below(WORDS) };
            let near = [kiosk[at].wrapping_add(1), kiosk[at].wrapping_sub(1), kiosk[at] ^ 1 << random.below(32), 0];
            kiosk[at] = random.pick(&near);
        }
        met.when(kiosk != words(&entries) && check(&kiosk) == 0, "sound after a change");
        for (call, _) in &calls {
            judge(&kiosk, &inbox(), call, None, met).map_err(|what| format!("{kiosk:?}: {what}"))?;
        }
    }
    Ok(20 * calls.len() as u64)
}
