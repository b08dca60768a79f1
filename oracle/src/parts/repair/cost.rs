//! What a repair costs: a batch on a link that loses 1 % of all lines both ways, lines and bytes counted until the standby is
//! complete, beside sending the whole batch again until then.

use super::history::entries;
use super::primary::Primary;
use crate::call::Call;
use crate::exports;
use crate::frame::{INBOX, LINE};
use crate::parts::uneven::{holding, Lean};
use crate::parts::{Compared, Effort};
use crate::random::Random;
use crate::rules::Supply;
use crate::table::Table;
use std::cell::Cell;

const ONE_IN: usize = 100;
const BATCH: u32 = 7;
const N: usize = 4096;
const VERSION: u32 = 2;

#[derive(Clone, Copy, Default)]
struct Cost {
    frames: u64,
    requests: u64,
    rounds: u64,
    /// Frames, where the whole batch is sent again.
    whole: u64,
}

fn lines(reply: crate::call::Reply) -> Result<Vec<Vec<u8>>, String> {
    match reply.number {
        0 => Ok(reply.bytes[..reply.fields[0] as usize].chunks(LINE).map(<[u8]>::to_vec).collect()),
        number => Err(format!("refused with {number}")),
    }
}

struct Sites {
    primary: Primary,
    block: Vec<u32>,
    inbox: Vec<u32>,
}

impl Sites {
    /// Three of four changes are puts of new keys, the rest are removes.
    fn apart(random: &mut Random, changes: u32) -> Sites {
        let side = |keys: std::ops::Range<u32>| keys.map(|i| (i.wrapping_mul(0x9e37_79b1), 1 + i)).collect::<Vec<_>>();
        let sides = [side(0..changes / 4), side(changes / 4..changes)].map(|mut side| {
            side.sort();
            side
        });
        let mut table = Table::fresh(N);
        table.versions[VERSION as usize] = holding(random, &mut Supply::new(table.free()), &sides[0], Lean::Anyhow, 1);
        let mut inbox = vec![0; INBOX];
        inbox[0] = BATCH;
        Sites { primary: Primary::holding(random, N, sides), block: table.words(), inbox }
    }

    /// One line in a hundred is lost.
    fn hear(&mut self, random: &mut Random, sent: &[Vec<u8>]) -> Result<(), String> {
        for line in sent.iter().filter(|_| !random.once_in(ONE_IN)) {
            let call = Call::Receive { version: VERSION, line: line.clone() };
            let reply = exports::run(&mut self.block, &mut self.inbox, &call);
            if reply.number != 0 {
                return Err(format!("{call:?} is answered with {}", reply.number));
            }
        }
        Ok(())
    }

    /// Asks and sends until the standby is complete. A request that lost a line is refused, and asked again.
    fn repaired(&mut self, random: &mut Random) -> Result<Cost, String> {
        let mut cost = Cost::default();
        while exports::missing(&self.inbox) != (0, 0) {
            let asking = lines(exports::run(&mut [], &mut self.inbox, &Call::Ask { start: 0, room: N * LINE }))?;
            cost.rounds += 1;
            cost.requests += asking.len() as u64;
            let arrived: Vec<Vec<u8>> = asking.iter().filter(|_| !random.once_in(ONE_IN)).cloned().collect();
            if arrived.len() == asking.len() {
                let call = self.primary.call(BATCH, &arrived.concat(), 0, N * LINE);
                let sent = lines(exports::run(&mut self.primary.trio.block, &mut [], &call))?;
                cost.frames += sent.len() as u64;
                self.hear(random, &sent)?;
            }
        }
        Ok(cost)
    }

    fn holds_b(&self) -> bool {
        let tree = &Table::read(&self.block).versions[VERSION as usize];
        let b = entries(&self.primary.trio.maps[self.primary.to as usize]);
        crate::rules::size(tree) == b.len() && b.iter().all(|&(key, value)| crate::rules::lookup(tree, key) == Some(value))
    }
}

/// How many frames are sent again, if all are until each has arrived.
fn whole_again(random: &mut Random, frames: u64) -> u64 {
    let mut left = (0..frames).filter(|_| random.once_in(ONE_IN)).count();
    let mut sent = 0;
    while left > 0 {
        sent += frames;
        left = (0..left).filter(|_| random.once_in(ONE_IN)).count();
    }
    sent
}

fn history(random: &mut Random, changes: u32) -> Result<Cost, String> {
    let mut sites = Sites::apart(random, changes);
    let all = sites.primary.lines(BATCH)?;
    if all.len() as u32 != changes {
        return Err(format!("{} frames for {changes} changes", all.len()));
    }
    sites.hear(random, &all)?;
    let cost = sites.repaired(random)?;
    if !sites.holds_b() {
        return Err("complete, but not B".into());
    }
    Ok(Cost { whole: whole_again(random, changes.into()), ..cost })
}

const SIZES: [(u32, u64); 2] = [(400, 20), (4000, 5)];

pub fn told(effort: Effort) -> Compared {
    let mut compared = 0;
    for (changes, usual) in SIZES {
        let sum = Cell::new(Cost::default());
        compared += effort.each(usual, |random| {
            let (cost, so_far) = (history(random, changes)?, sum.get());
            sum.set(Cost {
                frames: so_far.frames + cost.frames,
                requests: so_far.requests + cost.requests,
                rounds: so_far.rounds + cost.rounds,
                whole: so_far.whole + cost.whole,
            });
            Ok(cost.frames + cost.requests)
        })?;
        tell(changes, usual * effort.times, sum.get());
    }
    Ok(compared)
}

/// Means of the histories.
fn tell(changes: u32, histories: u64, sum: Cost) {
    let mean = |all: u64| all as f64 / histories as f64;
    let bytes = |all: u64| mean(all) * LINE as f64;
    let Cost { frames, requests, rounds, whole } = sum;
    println!(
        "repair of 1 % loss, {changes} frames, mean of {histories}: {:.1} request lines in {:.1} requests and {:.1} frames, {:.0} bytes; the whole batch again: {:.0} frames, {:.0} bytes",
        mean(requests),
        mean(rounds),
        mean(frames),
        bytes(requests + frames),
        mean(whole),
        bytes(whole)
    );
}
