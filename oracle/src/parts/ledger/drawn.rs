//! Drawn operations, slices and blocks.

use super::step::{Book, Shelf};
use crate::ledger::Op;
use crate::random::Random;

const MOST: u128 = u64::MAX as u128;

/// What a drawn operation is about.
pub struct About<'a> {
    pub book: &'a Book,
    pub shelf: &'a Shelf,
    pub version: u32,
    /// Calls of an account are numbered below this.
    pub calls: usize,
}

/// A word of any slice: small, near the largest, or anything.
pub fn total(random: &mut Random) -> u64 {
    match random.below(4) {
        0 => random.below(6) as u64,
        1 => u64::MAX - random.below(6) as u64,
        2 => random.below(1000) as u64,
        _ => random.next() << 16 | random.next(),
    }
}

fn clipped(minutes: u128) -> u32 {
    minutes.min(u32::MAX.into()) as u32
}

impl About<'_> {
    fn accounts(&self) -> usize {
        self.book.slice.len() / 3
    }

    /// Mostly the first, the last or the one in the middle, so that accounts fill; now and then one that is not there.
    fn account(&self, random: &mut Random) -> u32 {
        let n = self.accounts() as u32;
        match random.below(40) {
            0 => random.pick(&[n, n + 1, 255, 256, 257, 1 << 24, u32::MAX]),
            1..=6 => random.below(n.max(1) as usize) as u32,
            _ => random.pick(&[0, n.saturating_sub(1), n / 2]),
        }
    }

    fn call(&self, random: &mut Random) -> u32 {
        let account = self.account(random) & 255;
        let low = match random.below(40) {
            0 => random.pick(&[0, 0xff_ffff, 0x80_0000]),
            _ => random.below(self.calls) as u32,
        };
        account << 24 | low
    }

    /// Mostly a call that is open, if there is one.
    fn open_call(&self, random: &mut Random) -> u32 {
        let open = self.shelf.store.open.get(self.version as usize).filter(|open| !open.is_empty());
        match open {
            Some(open) if !random.once_in(5) => *open.keys().nth(random.below(open.len())).unwrap(),
            _ => self.call(random),
        }
    }

    fn minutes(&self, random: &mut Random, call: u32) -> u32 {
        let free = self.book.account(call >> 24).free;
        match random.below(10) {
            0 => 0,
            1 => clipped(free),
            2 => clipped(free + 1),
            3 => clipped(free / 2),
            4 => random.pick(&[u32::MAX, u32::MAX - 1, 1 << 31]),
            _ => random.below(12) as u32,
        }
    }

    fn used(&self, random: &mut Random, call: u32) -> u32 {
        let open = self.shelf.store.open.get(self.version as usize);
        let reserved = open.and_then(|open| open.get(&call).copied()).unwrap_or(0);
        match random.below(8) {
            0 => 0,
            1 => reserved,
            2 => reserved.saturating_add(1),
            3 => random.pick(&[u32::MAX, 1 << 31]),
            _ => random.below(reserved as usize + 1) as u32,
        }
    }

    /// Seldom as much as still fits, or one more.
    fn top_up(&self, random: &mut Random, account: u32) -> u64 {
        let held = self.book.account(account);
        let room = MOST - random.pick(&[held.topped, held.free]);
        match random.below(60) {
            0 => room as u64,
            1 => (room + 1).min(MOST) as u64,
            2 => random.pick(&[u64::MAX, 1 << 63, 1 << 32]),
            3 | 4 => 0,
            5..=8 => random.word().into(),
            _ => random.below(30) as u64,
        }
    }

    pub fn op(&self, random: &mut Random) -> Op {
        let version = self.version;
        match random.below(16) {
            0..=2 => {
                let account = self.account(random);
                Op::TopUp { account, minutes: self.top_up(random, account) }
            }
            3..=8 => {
                let call = if random.once_in(12) { self.open_call(random) } else { self.call(random) };
                Op::Reserve { version, call, minutes: self.minutes(random, call) }
            }
            9..=11 => {
                let call = self.open_call(random);
                Op::Settle { version, call, used: self.used(random, call) }
            }
            12..=14 => Op::Release { version, call: self.open_call(random) },
            _ => Op::Account { account: self.account(random) },
        }
    }

    /// A number of accounts for fresh: the slice's own, or another.
    pub fn fresh(&self, random: &mut Random) -> Op {
        let n = self.accounts() as u32;
        Op::Fresh { accounts: random.pick(&[n, n, n.wrapping_sub(1), n + 1, 0, 1, 256, 257, 1 << 16, u32::MAX]) }
    }
}

/// Another length: mostly none of a ledger's, above 256 accounts too; sometimes that of one with other accounts.
pub fn lengthened(random: &mut Random, slice: &mut Vec<u64>) {
    let n = slice.len() / 3;
    let lengths = [0, 1, 2, 3 * n - 1, 3 * n - 2, 3 * n + 1, 3 * n + 2, 3 * n + 3, 3 * n - 3, 769, 770, 771, 774];
    let above = [3 * (256 + n), 3 * 512, 3 * 1024, 3 * 257];
    let length = if random.once_in(4) { random.pick(&above) } else { random.pick(&lengths) };
    slice.truncate(length);
    while slice.len() < length {
        slice.push(total(random));
    }
}

/// A version that is not there.
pub fn beyond(random: &mut Random) -> u32 {
    random.pick(&[16, 17, 31, 255, 256, 1 << 16, 1 << 31, u32::MAX])
}

/// A block of another length, of another N, or with a changed word, which may still be sound.
pub fn damaged(random: &mut Random, block: &mut Vec<u32>) {
    let at = random.below(block.len());
    match random.below(10) {
        0 => block.truncate(at),
        1 => block.push(0),
        2 => drop(block.pop()),
        3 => block[0] = random.pick(&[0, 31, 33, 64, 4096, 4128, u32::MAX]),
        4..=6 => block[at] = block[at].wrapping_add(1),
        7 => block[at] = random.below(40) as u32,
        8 => block[1 + random.below(16)] = random.below(40) as u32,
        _ => block[at] ^= 1 << random.below(32),
    }
}
