//! The open calls of every version as ordered maps, beside the block that should hold them.

use crate::block::Block;
use crate::call::Call;
use crate::exports;
use crate::plain::{self, VERSION};
use crate::sound;
use crate::table::Table;
use std::collections::BTreeMap;

pub type Open = BTreeMap<u32, u32>;

#[derive(Clone)]
pub struct Store {
    /// Every word that the ledger's block should hold.
    pub block: Vec<u32>,
    /// The audit's number: 0 for a sound block.
    pub fault: u32,
    /// The open calls of the sixteen versions, where the block is sound.
    pub open: Vec<Open>,
    /// The first time that the table's own calls did not do as the maps.
    pub odd: Option<String>,
    edits: u64,
}

/// The entries of a version of a sound block.
pub fn entries(block: &[u32], version: u32) -> Open {
    let mut entries = Open::new();
    gather(Block(block), Block(block).root(version as usize), &mut entries);
    entries
}

fn gather(block: Block, link: u32, entries: &mut Open) {
    if link != 0 {
        let node = block.node(link);
        gather(block, node.left, entries);
        entries.insert(node.key, node.value);
        gather(block, node.right, entries);
    }
}

/// Every sixteenth edit, and every refused one, is done by document 01's rules too.
const SELDOM: u64 = 16;

impl Store {
    pub fn of(block: &[u32]) -> Self {
        let fault = sound::check(block);
        let open = if fault == 0 { (0..16).map(|version| entries(block, version)).collect() } else { vec![] };
        Store { block: block.to_vec(), fault, open, odd: None, edits: 0 }
    }

    pub fn lookup(&mut self, version: u32, key: u32) -> Result<Option<u32>, u32> {
        let found = match (self.fault, version) {
            (0, 0..=15) => Ok(self.open[version as usize].get(&key).copied()),
            (0, _) => Err(VERSION),
            (fault, _) => Err(fault),
        };
        let reply = exports::run(&mut self.block, &mut [], &Call::Lookup { version, key });
        let told = if reply.number == 0 { Ok((reply.fields[0] == 1).then_some(reply.fields[1])) } else { Err(reply.number) };
        self.same("lookup", found, told);
        found
    }

    pub fn insert(&mut self, version: u32, key: u32, value: u32) -> Result<(), u32> {
        let reply = self.edit(&Call::Insert { dest: version, source: version, key, value })?;
        let old = self.open[version as usize].insert(key, value);
        self.same("insert", [old.is_some() as u32, old.unwrap_or(0)], reply);
        Ok(())
    }

    pub fn remove(&mut self, version: u32, key: u32) -> Result<(), u32> {
        let reply = self.edit(&Call::Remove { dest: version, source: version, key })?;
        let old = self.open[version as usize].remove(&key);
        self.same("remove", [old.is_some() as u32, old.unwrap_or(0)], reply);
        Ok(())
    }

    /// One exported edit of the block. The ledger asks for it only after a lookup, so the block is sound.
    fn edit(&mut self, call: &Call) -> Result<[u32; 2], u32> {
        let entry = self.block.clone();
        let reply = exports::run(&mut self.block, &mut [], call);
        self.edits += 1;
        if reply.number != 0 || self.edits % SELDOM == 0 {
            let mut table = Table::read(&entry);
            let expected = plain::answer(&mut table, &mut [], call);
            self.same("edit", (expected.number, expected.fields), (reply.number, reply.fields));
            self.same("block after the edit", true, table.words() == self.block);
        }
        if reply.number == 0 {
            Ok(reply.fields)
        } else {
            Err(reply.number)
        }
    }

    /// Takes over an edit of another version, which the table's own calls have done.
    pub fn follow(&mut self, block: &[u32], version: u32) {
        self.block.copy_from_slice(block);
        self.open[version as usize] = entries(block, version);
    }

    fn same<T: PartialEq + std::fmt::Debug>(&mut self, what: &str, expected: T, told: T) {
        if expected != told {
            self.odd.get_or_insert(format!("the table's {what}: {told:?}, not {expected:?}"));
        }
    }
}
