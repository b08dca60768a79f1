//! The kiosk of document 02, #111: one version of at most 64 entries in a lent slice of 129 words. Its calls, as they are exported
//! and as the tree engine has them.

pub mod plain;

use crate::call::{self, Reply};
use crate::exports::{self, STALE};
use crate::exports::{ksk_kiosk_fresh, ksk_kiosk_insert, ksk_kiosk_list, ksk_kiosk_lookup, ksk_kiosk_receive, ksk_kiosk_remove};

#[derive(Clone, Debug)]
pub enum Call {
    Lookup {
        key: u32,
    },
    Insert {
        key: u32,
        value: u32,
    },
    Remove {
        key: u32,
    },
    /// Against an empty table; `room` is the output's length in words.
    List {
        start: u32,
        room: usize,
    },
    Receive {
        line: Vec<u8>,
    },
    /// Of the inbox alone.
    Missing,
}

impl Call {
    /// The same on one version of a block, listed against an empty one; the missing question has no block.
    fn of_tree(&self, version: u32, empty: u32) -> Option<call::Call> {
        Some(match *self {
            Call::Lookup { key } => call::Call::Lookup { version, key },
            Call::Insert { key, value } => call::Call::Insert { dest: version, source: version, key, value },
            Call::Remove { key } => call::Call::Remove { dest: version, source: version, key },
            Call::List { start, room } => call::Call::List { left: version, right: empty, start, room },
            Call::Receive { ref line } => call::Call::Receive { version, line: line.clone() },
            Call::Missing => return None,
        })
    }

    /// The reply of a call that has written nothing yet.
    pub fn blank(&self) -> Reply {
        self.of_tree(0, 1).map_or_else(Reply::default, |call| call.blank())
    }
}

pub fn fresh(kiosk: &mut [u32]) -> u32 {
    unsafe { ksk_kiosk_fresh(kiosk.as_mut_ptr(), kiosk.len()) }
}

/// Runs a call on the slices. They are given to change even where they are only read, so that a change would be seen.
pub fn run(kiosk: &mut [u32], inbox: &mut [u32], call: &Call) -> Reply {
    let mut reply = call.blank();
    let (k, words) = (kiosk.as_mut_ptr(), kiosk.len());
    let [x, y] = &mut reply.fields;
    (*x, *y) = (STALE, STALE);
    reply.number = unsafe {
        match *call {
            Call::Lookup { key } => ksk_kiosk_lookup(k, words, key, x, y),
            Call::Insert { key, value } => ksk_kiosk_insert(k, words, key, value, x, y),
            Call::Remove { key } => ksk_kiosk_remove(k, words, key, x, y),
            Call::List { start, room } => ksk_kiosk_list(k, words, start, reply.words.as_mut_ptr(), room, x, y),
            Call::Receive { ref line } => {
                reply.place = STALE;
                let (inbox, inbox_words) = (inbox.as_mut_ptr(), inbox.len());
                ksk_kiosk_receive(k, words, inbox, inbox_words, line.as_ptr(), line.len(), x, y, &mut reply.place)
            }
            Call::Missing => return asked(inbox),
        }
    };
    reply
}

/// Runs the tree engine's call of the same name on a version, beside which another is empty.
pub fn run_tree(block: &mut [u32], inbox: &mut [u32], [version, empty]: [u32; 2], call: &Call) -> Reply {
    match call.of_tree(version, empty) {
        Some(call) => exports::run(block, inbox, &call),
        None => asked(inbox),
    }
}

fn asked(inbox: &[u32]) -> Reply {
    let (number, missing) = exports::missing(inbox);
    Reply { number, fields: [missing, 0], ..Reply::default() }
}
