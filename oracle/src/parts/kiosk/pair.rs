//! One list of calls on both engines, from an empty table and a begun inbox: each beside the other, beside the sorted list of
//! document 02 and beside a plain map.

use super::alone::lend;
use super::met::Met;
use super::mirror::Mirror;
use crate::block::length;
use crate::call::Reply;
use crate::exports;
use crate::frame::INBOX;
use crate::history::same_words;
use crate::kiosk::plain::{self, WORDS};
use crate::kiosk::{fresh, run_tree, Call};
use crate::plain::NO_ROOM;

/// What programs use; 64 entries are far from filling it.
const N: usize = 2016;

#[derive(Clone)]
pub struct Pair {
    kiosk: Vec<u32>,
    kiosk_inbox: Vec<u32>,
    block: Vec<u32>,
    tree_inbox: Vec<u32>,
    /// The version that is edited, and one that stays empty.
    versions: [u32; 2],
    /// What the kiosk and both inboxes should say.
    words: Vec<u32>,
    inbox: Vec<u32>,
    pub mirror: Mirror,
}

impl Pair {
    pub fn fresh(version: u32, batch: u32) -> Result<Pair, String> {
        let (mut kiosk, mut block, inbox) = (vec![9; WORDS], vec![9; length(N)], vec![9; INBOX]);
        if (fresh(&mut kiosk), exports::fresh(&mut block, N as u32)) != (0, 0) {
            return Err("an empty kiosk or block is refused".into());
        }
        let [kiosk_inbox, tree_inbox] = [inbox.clone(), inbox.clone()];
        let (versions, words, mirror) = ([version, (version + 1) % 16], vec![0; WORDS], Mirror::default());
        let mut pair = Pair { kiosk, kiosk_inbox, block, tree_inbox, versions, words, inbox, mirror };
        pair.begin(batch);
        Ok(pair)
    }

    /// Both inboxes wait for a batch.
    pub fn begin(&mut self, batch: u32) {
        for inbox in [&mut self.kiosk_inbox, &mut self.tree_inbox] {
            assert_eq!(exports::begin(inbox, batch), 0);
        }
        self.inbox.fill(0);
        self.inbox[0] = batch;
        self.mirror.begin();
    }

    pub fn size(&self) -> usize {
        self.mirror.map.len()
    }

    /// Runs a call on both engines and compares: the replies, every word of kiosk, inboxes and outputs.
    pub fn step(&mut self, call: &Call, met: &mut Met) -> Result<Reply, String> {
        let size = self.size();
        self.compare(call, met).map_err(|what| format!("{call:?} at {size} entries: {what}"))
    }

    fn compare(&mut self, call: &Call, met: &mut Met) -> Result<Reply, String> {
        let expected = plain::answer(&mut self.words, &mut self.inbox, call);
        same("kiosk", &expected, &lend(&mut self.kiosk, &mut self.kiosk_inbox, call)?)?;
        same_words("kiosk", &self.words, &self.kiosk)?;
        same_words("kiosk's inbox", &self.inbox, &self.kiosk_inbox)?;
        met.alone(call, expected.number);
        if expected.number == NO_ROOM {
            return self.crowded(call).map(|()| expected);
        }
        let tree = run_tree(&mut self.block, &mut self.tree_inbox, self.versions, call);
        same("tree", &expected, &tree)?;
        same_words("tree's inbox", &self.inbox, &self.tree_inbox)?;
        if expected.number == 0 {
            same("map", &expected, &self.mirror.answer(call))?;
        }
        met.beside(call, &expected);
        Ok(expected)
    }

    /// The kiosk has no room, so the tree does the call on a copy alone: it would no longer be beside the kiosk. There the key is new.
    fn crowded(&self, call: &Call) -> Result<(), String> {
        let (mut block, mut inbox) = (self.block.clone(), self.tree_inbox.clone());
        let tree = run_tree(&mut block, &mut inbox, self.versions, call);
        if self.size() == plain::MOST && (tree.number, tree.fields[0]) == (0, 0) {
            Ok(())
        } else {
            Err(format!("the kiosk has no room, and the tree says {tree:?}"))
        }
    }
}

fn same(who: &str, expected: &Reply, told: &Reply) -> Result<(), String> {
    if told == expected {
        Ok(())
    } else {
        Err(format!("document 02 says {expected:?}, the {who} {told:?}"))
    }
}
