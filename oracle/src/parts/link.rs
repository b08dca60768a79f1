//! A delta sent over a link that loses, repeats, delays and garbles. The standby is complete exactly when each frame was
//! accepted; then it holds B, and until then each key is as in A or as in B. No value is 0: a put of 0 is never accepted, and
//! what comes of one is in `zeros`.

use super::{Compared, Effort};
use crate::call::Call;
use crate::exports;
use crate::frame::{Frame, LINE};
use crate::history::Trio;
use crate::original::Map;
use crate::plain::NO_ROOM;
use crate::random::Random;
use std::collections::{BTreeMap, BTreeSet};

type Entries = BTreeMap<u32, u32>;

fn entries(map: &Map) -> Entries {
    map.iter().map(|(key, &value)| (key, value)).collect()
}

const A: u32 = 0;
const B: u32 = 1;
const KEYS: usize = 40;

fn put(random: &mut Random, trio: &mut Trio, version: u32) -> Result<(), String> {
    let (key, value) = (random.below(KEYS) as u32, 1 + random.below(3) as u32);
    trio.step(&Call::Insert { dest: version, source: version, key, value }).map(drop)
}

fn remove(random: &mut Random, trio: &mut Trio, version: u32) -> Result<(), String> {
    trio.step(&Call::Remove { dest: version, source: version, key: random.below(KEYS) as u32 }).map(drop)
}

/// A primary with the versions A and B. B is a changed copy of A, or built apart; either may be empty.
fn primary(random: &mut Random, n: usize) -> Result<Trio, String> {
    let mut trio = Trio::fresh(n);
    for _ in 0..random.below(50) {
        put(random, &mut trio, A)?;
    }
    if random.once_in(2) {
        trio.step(&Call::Copy { dest: B, source: A })?;
    }
    for _ in 0..random.below(30) {
        put(random, &mut trio, B)?;
        remove(random, &mut trio, B)?;
    }
    Ok(trio)
}

/// The frames from one version to another, asked for in pieces.
fn lines(random: &mut Random, primary: &mut Trio, from: u32, to: u32, batch: u32) -> Result<Vec<Vec<u8>>, String> {
    let mut lines: Vec<Vec<u8>> = vec![];
    loop {
        let room = LINE * (1 + random.below(5)) + random.below(LINE);
        let reply = primary.step(&Call::Frames { from, to, batch, start: lines.len() as u32, room })?;
        lines.extend(reply.bytes[..reply.fields[0] as usize].chunks_exact(LINE).map(<[u8]>::to_vec));
        if lines.len() as u32 == reply.fields[1] {
            return Ok(lines);
        }
    }
}

struct Standby {
    trio: Trio,
    version: u32,
    a: Entries,
    b: Entries,
    count: u32,
    accepted: BTreeSet<u32>,
}

/// What else the standby holds may leave too little room; it is cleared when a line was refused for it.
const FILLER: u32 = 9;

impl Standby {
    /// A's entries put in any order, so that the shape is not the primary's.
    fn new(random: &mut Random, n: usize, primary: &Trio, count: u32, batch: u32) -> Result<Self, String> {
        let (a, b) = (entries(&primary.maps[A as usize]), entries(&primary.maps[B as usize]));
        let (mut trio, version) = (Trio::fresh(n), random.below(9) as u32);
        let mut pairs: Vec<_> = a.iter().collect();
        random.shuffle(&mut pairs);
        for (&key, &value) in pairs {
            trio.step(&Call::Insert { dest: version, source: version, key, value })?;
        }
        for key in 0..random.below(n - a.len()) as u32 {
            trio.step(&Call::Insert { dest: FILLER, source: FILLER, key, value: 1 })?;
        }
        let mut standby = Standby { trio, version, a: b, b: a, count, accepted: BTreeSet::new() };
        standby.turn(count, batch)?;
        Ok(standby)
    }

    /// Begins the batch that leads from where the last one ended to where it began.
    fn turn(&mut self, count: u32, batch: u32) -> Result<(), String> {
        std::mem::swap(&mut self.a, &mut self.b);
        self.count = count;
        self.accepted.clear();
        let begun = exports::begin(&mut self.trio.inbox, batch);
        self.judge(begun == 0 && exports::missing(&self.trio.inbox) == (0, u32::MAX), "begin")
    }

    fn complete(&self) -> bool {
        self.accepted.len() as u32 == self.count
    }

    fn hear(&mut self, line: &[u8]) -> Result<(), String> {
        let reply = self.trio.step(&Call::Receive { version: self.version, line: line.to_vec() })?;
        if reply.number == NO_ROOM {
            self.trio.step(&Call::Clear { version: FILLER })?;
        }
        if reply.number == 0 {
            let index = Frame::parse(line).ok_or("a malformed line was accepted")?.index;
            let new = self.accepted.insert(index);
            self.judge(reply.fields == [!new as u32, self.count - self.accepted.len() as u32], "new or repeat, and missing")?;
        }
        let missing = if self.accepted.is_empty() { u32::MAX } else { self.count - self.accepted.len() as u32 };
        self.judge(exports::missing(&self.trio.inbox) == (0, missing), "the missing question")?;
        let held = entries(&self.trio.maps[self.version as usize]);
        self.judge(self.between(&held), "a key is neither as in A nor as in B")?;
        self.judge(!self.complete() || held == self.b, "complete, but not B")
    }

    fn between(&self, held: &Entries) -> bool {
        let keys: BTreeSet<&u32> = self.a.keys().chain(self.b.keys()).chain(held.keys()).collect();
        keys.iter().all(|key| [self.a.get(key), self.b.get(key)].contains(&held.get(key)))
    }

    fn judge(&self, holds: bool, what: &str) -> Result<(), String> {
        if holds {
            Ok(())
        } else {
            Err(format!("{what}; {} of {} accepted", self.accepted.len(), self.count))
        }
    }
}

/// What arrives of a frame's line: the line, nothing, a line of another batch or with another count, or a garbled or cut one.
/// A line of this batch with a false field is a lie that no table can tell, unless an accepted line has said another count.
fn arriving(random: &mut Random, line: &[u8], counted: bool) -> Vec<u8> {
    let frame = Frame::parse(line).unwrap();
    match random.below(12) {
        0 => vec![],
        1 => Frame { batch: frame.batch ^ 1, ..frame }.line(),
        2 if counted => Frame { count: frame.count + 1, kind: 1, ..frame }.line(),
        3 => line[..random.below(LINE)].to_vec(),
        4 => {
            let mut line = Frame { batch: frame.batch ^ 1, ..frame }.line();
            line[random.below(LINE)] = random.word() as u8;
            if Frame::parse(&line).is_some_and(|f| f.batch == frame.batch) {
                vec![]
            } else {
                line
            }
        }
        _ => line.to_vec(),
    }
}

/// Sends lines, some of them, again and again, and late ones of another batch among them; at last all have most likely arrived.
fn send(random: &mut Random, standby: &mut Standby, lines: &[Vec<u8>], late: &[Vec<u8>]) -> Compared {
    standby.hear(&lines[0])?;
    let mut heard = 1;
    for _ in 0..40 {
        let mut sent = [lines, late].concat();
        random.shuffle(&mut sent);
        sent.truncate(1 + random.below(sent.len()));
        for line in sent {
            let counted = !standby.accepted.is_empty();
            standby.hear(&arriving(random, &line, counted))?;
            heard += 1;
        }
        if standby.complete() && random.once_in(3) {
            break;
        }
    }
    Ok(heard)
}

/// From A to B, and once that is complete, in a batch of its own, back to A. All digits of the two batch numbers differ, so that
/// no garbled line passes for one of the other batch.
fn there_and_back(random: &mut Random) -> Compared {
    let n = 32 * (3 + random.below(6));
    let batch = random.word();
    let mut primary = primary(random, n)?;
    let there = lines(random, &mut primary, A, B, batch)?;
    let mut standby = Standby::new(random, n, &primary, there.len() as u32, batch)?;
    let mut heard = send(random, &mut standby, &there, &[])?;
    if standby.complete() {
        let back = lines(random, &mut primary, B, A, !batch)?;
        standby.turn(back.len() as u32, !batch)?;
        heard += send(random, &mut standby, &back, &there)?;
    }
    Ok(heard)
}

pub fn sent(effort: Effort) -> Compared {
    effort.each(600, there_and_back)
}
