//! The calls that are really open, whatever a table says: who calls, how many minutes are to be reserved, when and how the call ends.

use crate::chance::Chance;
use std::collections::{BTreeMap, BTreeSet};

/// The clock goes in tenths of a second.
pub const TICKS_A_SECOND: u64 = 10;
/// 100 calls begin a second and as many end, each with one edit: 200 edits a second.
pub const BEGIN_A_TICK: u64 = 10;
pub const ACCOUNTS: u32 = 64;

#[derive(Clone, Copy)]
pub struct Call {
    pub number: u32,
    pub minutes: u32,
    pub ends: u64,
    /// What it is settled for; `None` if it drops and nothing is to be paid.
    pub used: Option<u32>,
}

pub struct Calls {
    open: BTreeMap<u32, Call>,
    endings: BTreeSet<(u64, u32)>,
    begun: u32,
    chance: Chance,
}

impl Calls {
    pub fn none(chance: Chance) -> Calls {
        Calls { open: BTreeMap::new(), endings: BTreeSet::new(), begun: 0, chance }
    }

    pub fn open(&self) -> &BTreeMap<u32, Call> {
        &self.open
    }

    /// A call's top eight bits are its account, the others count calls.
    pub fn begin(&mut self, now: u64) -> Call {
        let account = self.chance.between(0, ACCOUNTS as u64 - 1) as u32;
        self.begun += 1;
        let number = account << 24 | self.begun & 0xff_ffff;
        let (seconds, talks) = self.length();
        let used = talks.then_some(seconds.div_ceil(60) as u32);
        let call = Call { number, minutes: self.chance.between(3, 10) as u32, ends: now + TICKS_A_SECOND * seconds, used };
        self.add(call);
        call
    }

    /// Of 100 calls 60 are not answered and drop within 2 to 10 seconds, 38 talk for 5 to 20 seconds and 2 for 1 to 3 minutes: some 1,100 are open at once.
    fn length(&mut self) -> (u64, bool) {
        match self.chance.between(1, 100) {
            1..=60 => (self.chance.between(2, 10), false),
            61..=98 => (self.chance.between(5, 20), true),
            _ => (self.chance.between(60, 180), true),
        }
    }

    fn add(&mut self, call: Call) {
        self.open.insert(call.number, call);
        self.endings.insert((call.ends, call.number));
    }

    /// The calls that end by now.
    pub fn end(&mut self, now: u64) -> Vec<Call> {
        let later = self.endings.split_off(&(now + 1, 0));
        let ended = std::mem::replace(&mut self.endings, later);
        ended.into_iter().filter_map(|(_, number)| self.open.remove(&number)).collect()
    }

    /// As numbers, for the other process.
    pub fn words(&self) -> Vec<u64> {
        let call = |c: &Call| [c.number as u64, c.minutes as u64, c.ends, c.used.map_or(0, |used| used as u64 + 1)];
        [self.begun as u64, self.chance.state()].into_iter().chain(self.open.values().flat_map(call)).collect()
    }

    pub fn of_words(words: &[u64]) -> Calls {
        let mut calls = Calls::none(Chance::from_state(words[1]));
        calls.begun = words[0] as u32;
        for c in words[2..].chunks(4) {
            let used = (c[3] > 0).then(|| c[3] as u32 - 1);
            calls.add(Call { number: c[0] as u32, minutes: c[1] as u32, ends: c[2], used });
        }
        calls
    }
}
