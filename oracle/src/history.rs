//! One history on three sides: the exported calls on a block, document 01 on numbered trees, the original on its maps.

use crate::block::length;
use crate::call::{Call, Reply};
use crate::exports;
use crate::frame::INBOX;
use crate::original::{self, Map};
use crate::plain;
use crate::random::Random;
use crate::restore;
use crate::table::Table;
use crate::wbtree::map::look;

pub struct Trio {
    pub block: Vec<u32>,
    pub inbox: Vec<u32>,
    pub table: Table,
    pub maps: Vec<Map>,
}

impl Trio {
    pub fn fresh(n: usize) -> Self {
        let mut block = vec![u32::MAX; length(n)];
        assert_eq!(exports::fresh(&mut block, n as u32), 0);
        Trio { block, inbox: vec![0; INBOX], table: Table::fresh(n), maps: vec![Map::new(); 16] }
    }

    pub fn of(table: Table) -> Self {
        let block = table.words();
        let maps = look::plant(&block);
        Trio { block, inbox: vec![0; INBOX], table, maps }
    }

    /// Runs a call on all three and compares: the reply, every word of block, inbox and output, shapes and sharing.
    pub fn step(&mut self, call: &Call) -> Result<Reply, String> {
        self.compare(call).map_err(|what| format!("{call:?} at N = {}: {what}", self.table.n))
    }

    fn compare(&mut self, call: &Call) -> Result<Reply, String> {
        let mut inbox = self.inbox.clone();
        let expected = plain::answer(&mut self.table, &mut inbox, call);
        let reply = exports::run(&mut self.block, &mut self.inbox, call);
        if reply != expected {
            return Err(format!("document 01 says {expected:?}, the export {reply:?}"));
        }
        same_words("block", &self.table.words(), &self.block)?;
        same_words("inbox", &inbox, &self.inbox)?;
        if reply.number == 0 {
            original::follow(&mut self.maps, call, &reply)?;
            if let Call::Restore { version, .. } = *call {
                original::reshape(&mut self.maps, version, &self.block)?;
            }
        }
        original::alike(&self.block, &self.maps)?;
        Ok(reply)
    }
}

/// Every word as expected.
pub fn same_words(what: &str, expected: &[u32], words: &[u32]) -> Result<(), String> {
    match (0..words.len()).find(|&at| words[at] != expected[at]) {
        None => Ok(()),
        Some(at) => Err(format!("{what} word {at} is {}, not {}", words[at], expected[at])),
    }
}

/// Which keys and values a history draws from.
#[derive(Clone, Copy)]
pub enum Keys {
    Below(usize),
    Any,
}

#[derive(Clone, Copy)]
pub struct Mix {
    pub versions: usize,
    pub keys: Keys,
    /// Once in so many calls a version, rule or cancel number is drawn beyond the legal ones.
    pub illegal: usize,
    /// Once in so many values one is drawn that may be large; with fewer of them more sums fit.
    pub large: usize,
}

const EDGES: [u32; 6] = [0, 1, 2, u32::MAX - 1, u32::MAX, 1 << 31];

impl Mix {
    fn key(self, random: &mut Random) -> u32 {
        match self.keys {
            Keys::Below(n) => random.below(n) as u32,
            Keys::Any if random.once_in(8) => random.pick(&EDGES),
            Keys::Any => random.word(),
        }
    }

    /// Now and then 0, which an insert refuses; the zeros that trees hold are put there by hand.
    fn value(self, random: &mut Random) -> u32 {
        if !random.once_in(self.large) {
            return random.pick(&[0, 1, 1, 1, 2, 2, 3, 3]);
        }
        if random.once_in(2) {
            random.pick(&EDGES)
        } else {
            random.word()
        }
    }

    pub fn version(self, random: &mut Random) -> u32 {
        if random.once_in(self.illegal) {
            random.pick(&[16, 17, 31, 255, u32::MAX])
        } else {
            random.below(self.versions) as u32
        }
    }

    fn rule(self, random: &mut Random, rules: usize) -> u32 {
        if random.once_in(self.illegal) {
            random.pick(&[4, 5, 6, u32::MAX])
        } else {
            random.below(rules) as u32
        }
    }

    fn cancel(self, random: &mut Random) -> u32 {
        if random.once_in(self.illegal) {
            random.pick(&[2, u32::MAX])
        } else {
            random.below(2) as u32
        }
    }

    pub fn insert(self, random: &mut Random, version: u32) -> Call {
        Call::Insert { dest: version, source: version, key: self.key(random), value: self.value(random) }
    }

    /// Mostly few records; once in a while a length, a kind or a value that is refused.
    pub fn batch(self, random: &mut Random, dest: u32, source: u32) -> Call {
        let most = random.pick(&[9, 9, 9, 9, 9, 9, 9, 40]);
        let count = random.below(most);
        let record = |random: &mut Random| match random.below(5) {
            0..=2 => [1, self.key(random), self.value(random).max(1)],
            _ => [2, self.key(random), random.word()],
        };
        let mut edits: Vec<u32> = (0..count).flat_map(|_| record(random)).collect();
        if random.once_in(self.illegal) {
            match random.below(3) {
                0 => edits.push(1),
                1 => edits.extend([random.pick(&[0, 3, u32::MAX]), self.key(random), 1]),
                _ => edits.extend([1, self.key(random), 0]),
            }
        }
        Call::Batch { dest, source, edits }
    }

    /// A listing, mostly short; once in a while a line that is refused.
    pub fn restore(self, random: &mut Random, version: u32) -> Call {
        let most = random.pick(&[4, 12, 12, 40, 300]);
        let mut entries: Vec<restore::Entry> =
            (0..random.below(most)).map(|_| (self.key(random), self.value(random).max(1))).collect();
        entries.sort();
        entries.dedup_by_key(|entry| entry.0);
        if random.once_in(self.illegal) {
            entries.push((self.key(random), random.below(2) as u32));
        }
        let mut text = restore::lines(&entries);
        if random.once_in(self.illegal) {
            text.pop();
        }
        Call::Restore { version, text: restore::Text(text) }
    }

    /// An edit. Inserts lead, so that trees grow until room is short.
    pub fn edit(self, random: &mut Random) -> Call {
        let dest = self.version(random);
        match random.below(22) {
            0..=7 => {
                let source = if random.once_in(4) { self.version(random) } else { dest };
                Call::Insert { dest, source, key: self.key(random), value: self.value(random) }
            }
            8..=11 => {
                let source = if random.once_in(4) { self.version(random) } else { dest };
                Call::Remove { dest, source, key: self.key(random) }
            }
            20 | 21 => {
                let source = if random.once_in(4) { self.version(random) } else { dest };
                self.batch(random, dest, source)
            }
            12 if random.once_in(3) => self.restore(random, dest),
            12 | 13 => Call::Copy { dest, source: self.version(random) },
            14 if random.once_in(3) => Call::Clear { version: dest },
            14..=16 => Call::Union { dest, left: self.version(random), right: self.version(random), rule: self.rule(random, 5) },
            _ => Call::Difference {
                dest,
                left: self.version(random),
                right: self.version(random),
                rule: self.rule(random, 4),
                cancel: self.cancel(random),
            },
        }
    }

    /// A question. Outputs are sometimes short and starts sometimes past the end.
    pub fn question(self, random: &mut Random, n: usize) -> Call {
        let version = self.version(random);
        let start = match random.below(4) {
            0 => random.below(n) as u32,
            1 => random.pick(&EDGES),
            _ => 0,
        };
        match random.below(10) {
            0 => Call::Size { version },
            6 => Call::Held { version },
            7 | 8 => Call::HeldBetween { version, first: self.key(random), last: self.key(random) },
            1 | 2 => Call::List { left: version, right: self.version(random), start, room: random.below(4 * n + 8) },
            3 => {
                let to = self.version(random);
                Call::Frames { from: version, to, batch: random.word(), start, room: random.below(35 * n + 70) }
            }
            9 => Call::Same { from: version, to: self.version(random) },
            _ => Call::Lookup { version, key: self.key(random) },
        }
    }
}
