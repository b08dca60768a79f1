//! A primary with two versions and the lines between them, as the call that writes them all gives them.

use crate::call::{Call, Reply};
use crate::exports;
use crate::frame::LINE;
use crate::history::{same_words, Trio};
use crate::parts::uneven::{holding, Lean};
use crate::plain;
use crate::random::Random;
use crate::rules::Supply;
use crate::table::Table;
use std::collections::BTreeSet;

pub struct Primary {
    pub trio: Trio,
    pub from: u32,
    pub to: u32,
}

type Entries = Vec<(u32, u32)>;

/// Entries of which as many differ as the delta is to be long: puts of new keys and of other values, and removes.
fn pair(random: &mut Random, common: usize, delta: usize) -> [Entries; 2] {
    let [mut a, mut b] = [vec![], vec![]];
    let mut kinds: Vec<usize> = (0..common).map(|_| 0).chain((0..delta).map(|_| 1 + random.below(3))).collect();
    random.shuffle(&mut kinds);
    for (key, kind) in (0..).step_by(3).zip(kinds) {
        let value = 1 + random.below(9) as u32;
        match kind {
            0 => [&mut a, &mut b].map(|side| side.push((key, value))),
            1 => [a.push((key, value)), b.push((key, value + 1))],
            2 => [a.push((key, value)), ()],
            _ => [b.push((key, value)), ()],
        };
    }
    [a, b]
}

impl Primary {
    pub fn holding(random: &mut Random, n: usize, sides: [Entries; 2]) -> Primary {
        let (from, to) = (random.below(8) as u32, 8 + random.below(8) as u32);
        let mut table = Table::fresh(n);
        let mut supply = Supply::new(table.free());
        for (version, entries) in [from, to].into_iter().zip(sides) {
            table.versions[version as usize] = holding(random, &mut supply, &entries, Lean::Anyhow, 1);
        }
        Primary { trio: Trio::of(table), from, to }
    }

    /// Versions with so many lines between them; none is the single line "nothing".
    pub fn of_length(random: &mut Random, delta: usize) -> Result<Primary, String> {
        let common = random.below(8);
        let sides = pair(random, common, delta);
        let n = 32 * (1 + (sides[0].len() + sides[1].len()) / 32);
        let mut primary = Primary::holding(random, n, sides);
        match primary.lines(7)?.len() {
            told if told == delta.max(1) => Ok(primary),
            told => Err(format!("{told} frames for {delta} changes")),
        }
    }

    /// All lines of the delta.
    pub fn lines(&mut self, batch: u32) -> Result<Vec<Vec<u8>>, String> {
        let room = self.trio.table.n * LINE;
        let reply = self.trio.step(&Call::Frames { from: self.from, to: self.to, batch, start: 0, room })?;
        Ok(reply.bytes[..reply.fields[0] as usize].chunks(LINE).map(<[u8]>::to_vec).collect())
    }

    pub fn call(&self, batch: u32, request: &[u8], start: u32, room: usize) -> Call {
        Call::Resend { from: self.from, to: self.to, batch, request: request.to_vec(), start, room }
    }

    /// Sends what a request is known to ask: beside the plain reading, and beside the lines of the whole delta.
    pub fn send(&mut self, batch: u32, request: &[u8], asked: &BTreeSet<u32>, start: u32, room: usize) -> Result<Reply, String> {
        let lines = self.lines(batch)?;
        let call = self.call(batch, request, start, room);
        let reply = self.trio.step(&call)?;
        kept(&call, request)?;
        let wanted: Vec<&[u8]> = asked.iter().filter_map(|&index| lines.get(index as usize).map(Vec::as_slice)).collect();
        let sent = wanted[wanted.len().min(start as usize)..].iter().take(room / LINE).copied().collect::<Vec<_>>().concat();
        let expected = (0, [sent.len() as u32, wanted.len() as u32]);
        if (reply.number, reply.fields) != expected || reply.bytes[..sent.len()] != sent {
            return Err(format!("{call:?}: {reply:?}, not {expected:?} and those lines"));
        }
        Ok(reply)
    }

    /// The plain reading alone says what comes of it.
    pub fn compare(&self, call: &Call) -> Result<Reply, String> {
        let expected = plain::answer(&mut self.trio.table.clone(), &mut [], call);
        judge(&self.trio.block, call, expected)
    }
}

/// A request is only read.
fn kept(call: &Call, request: &[u8]) -> Result<(), String> {
    match call {
        Call::Resend { request: after, .. } if after == request => Ok(()),
        _ => Err(format!("{call:?} changed the request")),
    }
}

/// The answer is as expected, every byte of the output too, and no word of the block has changed.
pub fn judge(block: &[u32], call: &Call, expected: Reply) -> Result<Reply, String> {
    let mut words = block.to_vec();
    let reply = exports::run(&mut words, &mut [], call);
    if reply != expected {
        return Err(format!("{call:?}: {reply:?}, not {expected:?}"));
    }
    same_words("block", block, &words)?;
    Ok(reply)
}
