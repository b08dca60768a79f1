//! Batches whose delta puts zeros: those lines are never accepted, so the batch never becomes complete. Zeros that the delta
//! does not put are no hindrance.

use super::drawn;
use super::met::Met;
use crate::call::{Call, Reply};
use crate::exports;
use crate::frame::{Frame, INBOX, LINE};
use crate::parts::sums::site::{listed, run, Site};
use crate::parts::sums::Map;
use crate::parts::Compared;
use crate::random::Random;
use std::collections::BTreeSet;

const A: usize = 0;
const B: usize = 1;
const BATCH: u32 = 7;

/// A and B by hand. B is A with some keys changed, or anything; either may be free of zeros.
fn maps(random: &mut Random) -> [Map; 2] {
    let (mut a, mut b) = (drawn(random, 16, 20), drawn(random, 16, 20));
    if random.once_in(2) {
        b = a.iter().filter(|_| !random.once_in(4)).map(|(&key, &value)| (key, value)).chain(b.into_iter().take(3)).collect();
    }
    let spared = random.below(4);
    for (bit, map) in [&mut a, &mut b].into_iter().enumerate() {
        if spared >> bit & 1 == 1 {
            map.values_mut().for_each(|value| *value = (*value).max(1));
        }
    }
    [a, b]
}

fn frames(block: &mut [u32]) -> Result<Vec<Frame>, String> {
    let room = LINE * 40;
    let reply = run(block, &Call::Frames { from: A as u32, to: B as u32, batch: BATCH, start: 0, room });
    let lines = reply.bytes[..reply.fields[0] as usize].chunks_exact(LINE);
    lines.map(|line| Frame::parse(line).ok_or(format!("frames wrote {:?}", String::from_utf8_lossy(line)))).collect()
}

struct Standby {
    site: Site,
    inbox: Vec<u32>,
    count: u32,
    heard: BTreeSet<u32>,
}

impl Standby {
    fn missing(&self) -> u32 {
        self.count - self.heard.len() as u32
    }

    /// One line. A put of 0 is 13 and changes no word, whatever was heard; any other line is done.
    fn hear(&mut self, frame: &Frame, met: &mut Met) -> Result<(), String> {
        let (block, inbox) = (self.site.block.clone(), self.inbox.clone());
        let known = self.heard.contains(&frame.index);
        let reply = exports::run(&mut self.site.block, &mut self.inbox, &Call::Receive { version: A as u32, line: frame.line() });
        let map = &mut self.site.maps[A];
        let expected = if (frame.kind, frame.value) == (1, 0) {
            met.when(self.heard.is_empty(), "13 for the first line of a batch");
            met.when(known, "13 for a line heard");
            met.when(!known, "13 for a line not heard");
            Reply { number: 13, ..Reply::default() }
        } else {
            match frame.kind {
                1 if !known => drop(map.insert(frame.key, frame.value.into())),
                2 if !known => drop(map.remove(&frame.key)),
                _ => {}
            }
            self.heard.insert(frame.index);
            Reply { fields: [known as u32, self.missing()], ..Reply::default() }
        };
        let kept = block == self.site.block && inbox == self.inbox;
        if reply != expected || (reply.number != 0 || known) && !kept {
            return Err(format!("{frame:?}: {reply:?}, not {expected:?}, or changed words"));
        }
        self.judge()
    }

    /// The version and the missing question are as they should be.
    fn judge(&mut self) -> Result<(), String> {
        let missing = if self.heard.is_empty() { u32::MAX } else { self.missing() };
        if exports::missing(&self.inbox) != (0, missing) {
            return Err(format!("missing is not {missing}"));
        }
        match listed(&mut self.site.block, A, &self.site.maps[A]) {
            true => Ok(()),
            false => Err(format!("the standby does not hold {:?}", self.site.maps[A])),
        }
    }
}

/// A standby that holds A's entries under a shape of its own, with an inbox that has heard nothing.
fn standby(random: &mut Random, a: &Map, count: u32) -> Result<Standby, String> {
    let mut site = Site::fresh(128);
    let lean = random.below(5);
    site.plant(random, A, lean, a.clone());
    let mut inbox = vec![1; INBOX];
    match exports::begin(&mut inbox, BATCH) {
        0 => Ok(Standby { site, inbox, count, heard: BTreeSet::new() }),
        number => Err(format!("begin answers {number}")),
    }
}

/// Every line twice in any order, and puts of 0 under heard indexes; at the end the zeros alone are missing.
pub fn batch(random: &mut Random, met: &mut Met) -> Compared {
    let [a, b] = maps(random);
    let mut primary = Site::fresh(128);
    for (version, map) in [(A, &a), (B, &b)] {
        let lean = random.below(5);
        primary.plant(random, version, lean, map.clone());
    }
    let frames = frames(&mut primary.block)?;
    let mut standby = standby(random, &a, frames.len() as u32)?;
    let zero = Frame { kind: 1, value: 0, ..frames[0] };
    let mut sent = [&frames[..], &frames[..], &[zero]].concat();
    random.shuffle(&mut sent);
    for frame in sent.iter().chain([&zero]) {
        standby.hear(frame, met)?;
    }
    let zeros = frames.iter().filter(|frame| (frame.kind, frame.value) == (1, 0)).count() as u32;
    let complete = standby.missing() == 0;
    if standby.missing() != zeros || complete && standby.site.maps[A] != b {
        return Err(format!("{} are missing after all but {zeros} puts of 0, from {a:?} to {b:?}", standby.missing()));
    }
    let held = [&a, &b].map(|map| map.values().any(|&value| value == 0));
    met.when(!complete, "never complete");
    met.when(complete && held == [true, false], "complete where A alone holds 0");
    met.when(complete && held == [true, true], "complete where both hold 0");
    met.when(complete && held == [false, false], "complete without 0");
    Ok(sent.len() as u64 + 2)
}
