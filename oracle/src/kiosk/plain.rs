//! What document 02 says of a kiosk's calls: a sorted list of at most 64 entries, shown by 129 words.

use super::Call;
use crate::call::Reply;
use crate::frame::{self, Fault, Frame};
use crate::plain::{BATCH, COUNT, NO_ROOM, ZERO};
use crate::sound::check_inbox;

pub const WORDS: usize = 129;
pub const MOST: usize = 64;

pub type Entry = (u32, u32);

/// The pairs of a slice, used and unused.
fn pairs(words: &[u32]) -> Vec<Entry> {
    words[1..].chunks_exact(2).map(|pair| (pair[0], pair[1])).collect()
}

/// The number is at most 64, keys strictly ascend, and unused pairs are zero.
fn sound(words: &[u32]) -> bool {
    let (count, pairs) = (words[0] as usize, pairs(words));
    count <= MOST && pairs[..count].windows(2).all(|two| two[0].0 < two[1].0) && pairs[count..].iter().all(|&pair| pair == (0, 0))
}

/// 1 SHAPE, 2 DAMAGED, 0 neither.
pub fn check(words: &[u32]) -> u32 {
    if words.len() != WORDS {
        1
    } else if !sound(words) {
        2
    } else {
        0
    }
}

/// The entries of a sound slice.
pub fn entries(words: &[u32]) -> Vec<Entry> {
    pairs(words)[..words[0] as usize].to_vec()
}

/// The slice of entries, which ascend.
pub fn words(entries: &[Entry]) -> Vec<u32> {
    let used = entries.iter().flat_map(|&(key, value)| [key, value]);
    let mut words: Vec<u32> = [entries.len() as u32].into_iter().chain(used).collect();
    words.resize(WORDS, 0);
    words
}

/// The numbers that go before all others: the kiosk's shape, the inbox's, the kiosk's soundness, the inbox's.
fn refused(kiosk: &[u32], inbox: &[u32], call: &Call) -> u32 {
    let of_kiosk = if matches!(call, Call::Missing) { 0 } else { check(kiosk) };
    let of_inbox = if matches!(call, Call::Receive { .. } | Call::Missing) { check_inbox(inbox) } else { 0 };
    match (of_kiosk, of_inbox) {
        (1, _) | (_, 1) => 1,
        (2, _) | (_, 2) => 2,
        _ => 0,
    }
}

/// Answers a call on any words. A refusal leaves all of them alone.
pub fn answer(kiosk: &mut [u32], inbox: &mut [u32], call: &Call) -> Reply {
    let mut reply = call.blank();
    match run(kiosk, inbox, call, &mut reply.words) {
        Ok(fields) => Reply { fields, ..reply },
        Err(Fault { number, place }) => Reply { number, place, ..call.blank() },
    }
}

fn fault(number: u32) -> Fault {
    Fault { number, place: 0 }
}

fn run(kiosk: &mut [u32], inbox: &mut [u32], call: &Call, out: &mut [u32]) -> Result<[u32; 2], Fault> {
    match refused(kiosk, inbox, call) {
        0 if matches!(call, Call::Missing) => return Ok([frame::missing(inbox), 0]),
        0 => {}
        number => return Err(fault(number)),
    }
    let mut entries = entries(kiosk);
    let fields = match *call {
        Call::Lookup { key } => found(place(&entries, key).ok().map(|at| entries[at].1)),
        Call::Insert { key, value } => found(put(&mut entries, key, value)?),
        Call::Remove { key } => found(take(&mut entries, key)),
        Call::List { start, room } => list(&entries, start, room, out),
        Call::Receive { ref line } => receive(&mut entries, inbox, line)?,
        Call::Missing => unreachable!("answered above"),
    };
    kiosk.copy_from_slice(&words(&entries));
    Ok(fields)
}

fn found(value: Option<u32>) -> [u32; 2] {
    [value.is_some() as u32, value.unwrap_or(0)]
}

/// Where the key stands, or where it would go.
fn place(entries: &[Entry], key: u32) -> Result<usize, usize> {
    let below = entries.iter().take_while(|entry| entry.0 < key).count();
    if entries.get(below).is_some_and(|entry| entry.0 == key) {
        Ok(below)
    } else {
        Err(below)
    }
}

/// The old value. A zero is refused before room is asked for; only a new key needs room.
fn put(entries: &mut Vec<Entry>, key: u32, value: u32) -> Result<Option<u32>, Fault> {
    if value == 0 {
        return Err(fault(ZERO));
    }
    match place(entries, key) {
        Ok(at) => Ok(Some(std::mem::replace(&mut entries[at].1, value))),
        Err(_) if entries.len() == MOST => Err(fault(NO_ROOM)),
        Err(at) => {
            entries.insert(at, (key, value));
            Ok(None)
        }
    }
}

fn take(entries: &mut Vec<Entry>, key: u32) -> Option<u32> {
    place(entries, key).ok().map(|at| entries.remove(at).1)
}

/// Key, value, 0, 0 from a start index on, while four words remain.
fn list(entries: &[Entry], start: u32, room: usize, out: &mut [u32]) -> [u32; 2] {
    let rows = entries.iter().skip(start as usize).take(room / 4);
    let words: Vec<u32> = rows.flat_map(|&(key, value)| [key, value, 0, 0]).collect();
    out[..words.len()].copy_from_slice(&words);
    [words.len() as u32, entries.len() as u32]
}

fn receive(entries: &mut Vec<Entry>, inbox: &mut [u32], line: &[u8]) -> Result<[u32; 2], Fault> {
    let frame = Frame::read(line)?;
    if frame.batch != inbox[0] {
        return Err(fault(BATCH));
    }
    if inbox[1] != 0 && inbox[1] != frame.count {
        return Err(fault(COUNT));
    }
    if frame.kind == 1 && frame.value == 0 {
        return Err(fault(ZERO));
    }
    let repeat = frame::heard(inbox, frame.index);
    if !repeat {
        match frame.kind {
            1 => {
                put(entries, frame.key, frame.value)?;
            }
            2 => {
                take(entries, frame.key);
            }
            _ => {}
        }
        inbox[1] = frame.count;
        frame::hear(inbox, frame.index);
    }
    Ok([repeat as u32, frame::missing(inbox)])
}
