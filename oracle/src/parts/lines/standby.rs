//! A standby's words before a line, and the line heard on copies of them.

use crate::call::{Call, Reply};
use crate::exports;
use crate::frame::{self, Fault, Frame, INBOX};
use crate::history::same_words;
use crate::parts::uneven::{self, Lean};
use crate::plain;
use crate::random::Random;
use crate::rules::Supply;
use crate::table::Table;

pub struct Standby {
    pub block: Vec<u32>,
    pub inbox: Vec<u32>,
    pub version: u32,
}

/// A few entries in one version, the frame's key sometimes among them, and room for every edit of them.
pub fn table(random: &mut Random, version: u32, frame: &Frame) -> Table {
    let mut table = Table::fresh(64);
    let mut keys: Vec<u32> = (0..1 + random.below(8)).map(|_| random.word()).collect();
    if random.once_in(2) {
        keys.push(frame.key);
    }
    keys.sort();
    keys.dedup();
    table.versions[version as usize] = uneven::tree(random, &mut Supply::new(table.free()), &keys, Lean::Anyhow, 2);
    table
}

/// An inbox of a batch with a count, in which some lines were heard.
pub fn inbox(random: &mut Random, batch: u32, count: u32) -> Vec<u32> {
    let mut inbox = vec![0; INBOX];
    (inbox[0], inbox[1]) = (batch, count);
    for _ in 0..random.below(4).min(count as usize) {
        frame::hear(&mut inbox, random.below(count as usize) as u32);
    }
    inbox
}

impl Standby {
    /// Sound words that wait for the frame's batch; the count is known already or not.
    pub fn awaiting(random: &mut Random, frame: &Frame) -> Standby {
        let version = random.below(16) as u32;
        let count = if random.once_in(2) && frame.count <= 4096 { frame.count } else { 0 };
        Standby { block: table(random, version, frame).words(), inbox: inbox(random, frame.batch, count), version }
    }

    /// A refusal that is known beforehand leaves zeros in every other field and every word as it was; where none is, the plain
    /// rules say what comes of the line.
    pub fn hear(&self, line: &[u8], known: Option<Fault>) -> Result<Reply, String> {
        let call = Call::Receive { version: self.version, line: line.to_vec() };
        let (mut block_told, mut inbox_told) = (self.block.clone(), self.inbox.clone());
        let expected = match known {
            Some(Fault { number, place }) => Reply { number, place, ..call.blank() },
            None => {
                let mut table = Table::read(&self.block);
                let expected = plain::answer(&mut table, &mut inbox_told, &call);
                block_told = table.words();
                expected
            }
        };
        let (mut block, mut inbox) = (self.block.clone(), self.inbox.clone());
        let reply = exports::run(&mut block, &mut inbox, &call);
        if reply != expected {
            return Err(format!("line {:?}: {reply:?}, not {expected:?}", String::from_utf8_lossy(line)));
        }
        same_words("block", &block_told, &block)?;
        same_words("inbox", &inbox_told, &inbox)?;
        Ok(reply)
    }
}
