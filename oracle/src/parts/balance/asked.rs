//! The calls that walk, asked of two versions: each must answer 0 and what document 01 says.

use crate::block::length;
use crate::call::Call;
use crate::exports;
use crate::frame::INBOX;
use crate::history::same_words;
use crate::plain;
use crate::table::Table;

/// A block that the exported calls have made from a fresh one, and the same history in plain Rust.
pub struct Pair {
    pub block: Vec<u32>,
    pub inbox: Vec<u32>,
    pub table: Table,
}

impl Pair {
    pub fn fresh(n: usize) -> Self {
        let mut block = vec![u32::MAX; length(n)];
        assert_eq!(exports::fresh(&mut block, n as u32), 0);
        Pair { block, inbox: vec![0; INBOX], table: Table::fresh(n) }
    }

    /// A call on both sides; the replies must be equal.
    pub fn answer(&mut self, call: &Call) -> Result<u32, String> {
        let expected = plain::answer(&mut self.table, &mut self.inbox.clone(), call);
        let reply = exports::run(&mut self.block, &mut self.inbox, call);
        if reply == expected {
            Ok(reply.number)
        } else {
            Err(format!("{call:?}: document 01 says {expected:?}, the export {reply:?}"))
        }
    }

    pub fn done(&mut self, call: &Call) -> Result<(), String> {
        match self.answer(call)? {
            0 => Ok(()),
            number => Err(format!("{call:?}: {number}")),
        }
    }

    /// Every word of the block.
    pub fn same(&self) -> Result<(), String> {
        same_words("block", &self.table.words(), &self.block)
    }

    /// All that walks two versions, both ways; it compares six calls.
    pub fn walks(&mut self, a: u32, b: u32) -> Result<u64, String> {
        let n = self.table.n;
        for (left, right) in [(a, b), (b, a)] {
            self.done(&Call::List { left, right, start: 0, room: 4 * n })?;
            self.done(&Call::Frames { from: left, to: right, batch: 7, start: 0, room: 35 * n })?;
            self.done(&Call::Same { from: left, to: right })?;
        }
        Ok(6)
    }
}
