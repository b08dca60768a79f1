//! A block and, beside it, each version as a plain map: how versions come into it, and one union compared.

use super::{allowed, united, Entry, Map, LIMIT};
use crate::block::{length, mark, place, Block, WIDTH};
use crate::call::{Call, Reply};
use crate::exports;
use crate::random::Random;

const TOO_DEEP: u32 = 6;

/// Never a destination: listings go against it.
const NOTHING: usize = 13;
const FILLER: usize = 15;

pub struct Site {
    pub block: Vec<u32>,
    pub maps: Vec<Map>,
}

pub fn run(block: &mut [u32], call: &Call) -> Reply {
    exports::run(block, &mut [], call)
}

fn walk(block: &[u32], link: u32, entries: &mut Vec<Entry>) {
    if link != 0 {
        let node = Block(block).node(link);
        walk(block, node.left, entries);
        entries.push((node.key, node.value as u64));
        walk(block, node.right, entries);
    }
}

/// The version lists as the map; one too deep to list has the map's size and finds every key of it.
pub fn listed(block: &mut [u32], version: usize, map: &Map) -> bool {
    let room = 4 * map.len() + 4;
    let (left, right) = (version as u32, NOTHING as u32);
    let reply = run(block, &Call::List { left, right, start: 0, room });
    if reply.number == TOO_DEEP {
        let found = |(&key, &value): (&u32, &u64)| run(block, &Call::Lookup { version: left, key }).fields == [1, value as u32];
        return map.iter().all(found) && run(block, &Call::Size { version: left }).fields[0] as usize == map.len();
    }
    let words: Vec<u32> = map.iter().flat_map(|(&key, &value)| [key, value as u32, 0, 0]).collect();
    (reply.number, reply.fields) == (0, [words.len() as u32, map.len() as u32]) && reply.words.starts_with(&words)
}

pub fn held(block: &mut [u32], version: usize) -> u64 {
    let [low, high] = run(block, &Call::Held { version: version as u32 }).fields;
    low as u64 | (high as u64) << 32
}

impl Site {
    pub fn fresh(n: usize) -> Site {
        let mut block = vec![7; length(n)];
        assert_eq!(exports::fresh(&mut block, n as u32), 0);
        Site { block, maps: vec![Map::new(); 16] }
    }

    pub fn free(&self) -> Vec<u32> {
        (1..=self.block[0]).filter(|&number| !Block(&self.block).occupied(number)).collect()
    }

    pub fn put(&mut self, version: usize, key: u32, value: u64) {
        let (dest, source) = (version as u32, version as u32);
        if run(&mut self.block, &Call::Insert { dest, source, key, value: value as u32 }).number == 0 {
            self.maps[version].insert(key, value);
        }
    }

    pub fn remove(&mut self, version: usize, key: u32) {
        let (dest, source) = (version as u32, version as u32);
        if run(&mut self.block, &Call::Remove { dest, source, key }).number == 0 {
            self.maps[version].remove(&key);
        }
    }

    pub fn copy(&mut self, dest: usize, source: usize) {
        run(&mut self.block, &Call::Copy { dest: dest as u32, source: source as u32 });
        self.maps[dest] = self.maps[source].clone();
    }

    /// A tree written by hand under the numbers given: a chain either way, a zigzag, even or anyhow.
    fn link(&mut self, random: &mut Random, lean: usize, numbers: &mut Vec<u32>, entries: &[Entry]) -> u32 {
        if entries.is_empty() {
            return 0;
        }
        let last = entries.len() - 1;
        let top = [0, last, entries.len() % 2 * last, entries.len() / 2, random.below(entries.len())][lean];
        let left = self.link(random, lean, numbers, &entries[..top]);
        let right = self.link(random, lean, numbers, &entries[top + 1..]);
        let (number, sum) = (numbers.pop().expect("a free node"), entries.iter().map(|entry| entry.1).sum::<u64>());
        let ((word, bit), at) = (mark(number), place(self.block[0] as usize, number));
        let ((key, value), size) = (entries[top], entries.len() as u32);
        self.block[word] |= bit;
        let words = [key, value as u32, left, right, size, 1, sum as u32, (sum >> 32) as u32];
        self.block[at..at + WIDTH].copy_from_slice(&words);
        number
    }

    pub fn plant(&mut self, random: &mut Random, version: usize, lean: usize, map: Map) {
        let mut free = self.free();
        random.shuffle(&mut free);
        let entries: Vec<Entry> = map.iter().map(|(&key, &value)| (key, value)).collect();
        self.block[1 + version] = self.link(random, lean, &mut free, &entries);
        self.maps[version] = map;
    }

    /// By hand, or by inserts in some order with strays put and removed between them.
    pub fn build(&mut self, random: &mut Random, version: usize, map: Map) {
        if random.once_in(4) {
            let lean = random.below(5);
            return self.plant(random, version, lean, map);
        }
        let mut entries: Vec<Entry> = map.into_iter().collect();
        match random.below(4) {
            0 => {}
            1 => entries.reverse(),
            _ => random.shuffle(&mut entries),
        }
        let strays = random.pick(&[2, 10, 1000]);
        for (key, value) in entries {
            if random.once_in(strays) {
                let stray = if random.once_in(2) { key ^ 1 } else { random.word() };
                self.put(version, stray, value);
                self.put(version, key, 5);
                self.remove(version, stray);
            }
            self.put(version, key, value);
        }
    }

    /// The same with all but `left` free nodes taken up.
    pub fn filled(&self, random: &mut Random, left: usize) -> Site {
        let mut site = Site { block: self.block.clone(), maps: self.maps.clone() };
        let taken = self.free().len().saturating_sub(left) as u32;
        let lean = 3 + random.below(2);
        site.plant(random, FILLER, lean, (0..taken).map(|key| (key, LIMIT)).collect());
        site
    }

    /// After a done edit: the destination's entries and minutes, and everything else as it stood.
    pub fn done(&self, block: &mut [u32], dest: usize, expected: &Map, minutes: u64) -> Result<(), String> {
        if !listed(block, dest, expected) || minutes != expected.values().sum() {
            return Err(format!("other entries or minutes than {expected:?}"));
        }
        for version in (0..16).filter(|&version| version != dest) {
            let mut entries = vec![];
            walk(block, block[1 + version], &mut entries);
            if !entries.into_iter().eq(self.maps[version].iter().map(|(&key, &value)| (key, value))) {
                return Err(format!("version {version} has changed"));
            }
        }
        Ok(())
    }

    /// One union on a copy of the block. A refusal must leave every word.
    pub fn unite(&self, free: usize, [dest, left, right]: [usize; 3], rule: u32) -> Result<u32, String> {
        let (a, b, mut block) = (&self.maps[left], &self.maps[right], self.block.clone());
        let both = if rule == 4 { held(&mut block, left) + held(&mut block, right) } else { 0 };
        let call = Call::Union { dest: dest as u32, left: left as u32, right: right as u32, rule };
        let (number, expected) = (run(&mut block, &call).number, allowed(a, b, rule, free));
        let told = |what: String| format!("{call:?}, {free} free, {a:?} and {b:?}: {what}");
        if !expected.contains(&number) {
            return Err(told(format!("{number}, not one of {expected:?}")));
        }
        if number != 0 {
            return if block == self.block { Ok(number) } else { Err(told(format!("{number} with changed words"))) };
        }
        let minutes = held(&mut block, dest);
        self.done(&mut block, dest, &united(a, b, rule), minutes).map_err(told)?;
        if rule == 4 && minutes != both {
            return Err(told("minutes are lost".into()));
        }
        Ok(0)
    }
}
