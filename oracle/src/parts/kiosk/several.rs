//! Lines at a kiosk where several checks fail at once: the first in the documents' order decides, and nothing else is told. The
//! checks are those of the tree engine's receive but for the version; what is asked of a block there is asked of the kiosk here.

use super::alone::judge;
use super::met::Met;
use crate::frame::{Fault, Frame};
use crate::kiosk::plain::{words, Entry, MOST, WORDS};
use crate::kiosk::Call;
use crate::parts::lines::several::{frame, inbox, line, Check, Fails, CHECKS};
use crate::parts::{checks, Compared};
use crate::random::Random;
use std::cell::RefCell;
use std::collections::BTreeSet;

use Check::*;

/// Two entries or more, 64 without the frame's key where room is to be short.
fn kiosk(random: &mut Random, frame: &Frame, fails: &Fails) -> Vec<u32> {
    let full = fails.contains(&Room);
    let count = if full { MOST } else { 2 + random.below(MOST - 2) };
    let mut keys: BTreeSet<u32> = (!full && random.once_in(2)).then_some(frame.key).into_iter().collect();
    while keys.len() < count {
        let key = random.word();
        (key != frame.key).then(|| keys.insert(key));
    }
    let entries: Vec<Entry> = keys.into_iter().map(|key| (key, random.below(3) as u32)).collect();
    let mut words = words(&entries);
    if fails.contains(&BlockSound) {
        match random.below(3) {
            0 => words[0] = random.pick(&[65, 1 << 31, u32::MAX]),
            1 if count < MOST => words[WORDS - 1 - random.below(2)] = 1,
            _ => words[3] = words[1],
        }
    }
    if fails.contains(&BlockShape) {
        words.resize(random.pick(&[0, 1, WORDS - 1, WORDS + 1, 2 * WORDS]), 0);
    }
    words
}

/// Fails what is to fail, and nothing else.
fn case(random: &mut Random, fails: &Fails, met: &mut Met) -> Result<(), String> {
    let frame = frame(random, fails);
    let (line, place) = line(random, &frame, fails);
    let (kiosk, inbox) = (kiosk(random, &frame, fails), inbox(random, &frame, fails));
    let told = |(check, number): &(Check, u32)| Fault { number: *number, place: if *check == Digit { place } else { 0 } };
    let known = CHECKS.iter().find(|(check, _)| fails.contains(check)).map(told);
    let reply = judge(&kiosk, &inbox, &Call::Receive { line }, known, met)?;
    if known.is_none() && reply.number != 0 {
        return Err(format!("a good line is refused with {}", reply.number));
    }
    Ok(())
}

pub fn every_pair(random: &mut Random, met: &mut Met) -> Compared {
    let met = RefCell::new(met);
    let all: Vec<Check> = CHECKS.into_iter().map(|(check, _)| check).filter(|&check| check != Version).collect();
    checks::every_pair(random, &all, |random, fails| case(random, fails, *met.borrow_mut()))
}
