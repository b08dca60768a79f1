//! The calls that are lent a block, and what comes back.

use crate::batch::records;
use crate::restore;

#[derive(Clone, Debug)]
pub enum Call {
    Lookup {
        version: u32,
        key: u32,
    },
    Size {
        version: u32,
    },
    Held {
        version: u32,
    },
    HeldBetween {
        version: u32,
        first: u32,
        last: u32,
    },
    Insert {
        dest: u32,
        source: u32,
        key: u32,
        value: u32,
    },
    Remove {
        dest: u32,
        source: u32,
        key: u32,
    },
    Copy {
        dest: u32,
        source: u32,
    },
    /// `edits` are the words of the records.
    Batch {
        dest: u32,
        source: u32,
        edits: Vec<u32>,
    },
    Clear {
        version: u32,
    },
    Restore {
        version: u32,
        text: restore::Text,
    },
    Union {
        dest: u32,
        left: u32,
        right: u32,
        rule: u32,
    },
    Difference {
        dest: u32,
        left: u32,
        right: u32,
        rule: u32,
        cancel: u32,
    },
    /// `room` is the output's length in words.
    List {
        left: u32,
        right: u32,
        start: u32,
        room: usize,
    },
    /// `room` is the output's length in bytes.
    Frames {
        from: u32,
        to: u32,
        batch: u32,
        start: u32,
        room: usize,
    },
    Same {
        from: u32,
        to: u32,
    },
    Receive {
        version: u32,
        line: Vec<u8>,
    },
    /// Of the inbox alone.
    Ask {
        start: u32,
        room: usize,
    },
    Resend {
        from: u32,
        to: u32,
        batch: u32,
        request: Vec<u8>,
        start: u32,
        room: usize,
    },
}

/// The number, two fields in the order of the export's pointers (of minutes and of a faulty line's number the low and the high word), the place of a line's bad
/// digit, and the whole output: what was not written keeps its pattern.
#[derive(Clone, PartialEq, Eq, Debug, Default)]
pub struct Reply {
    pub number: u32,
    pub fields: [u32; 2],
    pub place: u32,
    pub words: Vec<u32>,
    pub bytes: Vec<u8>,
}

/// What an output holds before a call, and how much of it stands behind the part that is lent.
const WORD: u32 = 0xa5a5_5a5a;
const BYTE: u8 = 0xa5;
const BEHIND: usize = 40;

impl Call {
    /// The reply of a call that has written nothing yet.
    pub fn blank(&self) -> Reply {
        match *self {
            Call::List { room, .. } => Reply { words: vec![WORD; room + BEHIND], ..Reply::default() },
            Call::Frames { room, .. } | Call::Ask { room, .. } | Call::Resend { room, .. } => Reply { bytes: vec![BYTE; room + BEHIND], ..Reply::default() },
            _ => Reply::default(),
        }
    }

    pub fn versions(&self) -> Vec<u32> {
        match *self {
            Call::Lookup { version, .. }
            | Call::Size { version }
            | Call::Held { version }
            | Call::HeldBetween { version, .. }
            | Call::Clear { version }
            | Call::Restore { version, .. }
            | Call::Receive { version, .. } => vec![version],
            Call::Insert { dest, source, .. }
            | Call::Remove { dest, source, .. }
            | Call::Copy { dest, source }
            | Call::Batch { dest, source, .. } => vec![dest, source],
            Call::Union { dest, left, right, .. } | Call::Difference { dest, left, right, .. } => vec![dest, left, right],
            Call::List { left, right, .. } => vec![left, right],
            Call::Frames { from, to, .. } | Call::Same { from, to } | Call::Resend { from, to, .. } => vec![from, to],
            Call::Ask { .. } => vec![],
        }
    }

    pub fn edits_known(&self) -> bool {
        match self {
            Call::Batch { edits, .. } => records(edits).is_some(),
            _ => true,
        }
    }

    /// The first faulty line of a listing.
    pub fn faulty_line(&self) -> Option<restore::Fault> {
        match self {
            Call::Restore { text, .. } => restore::entries(&text.0).err(),
            _ => None,
        }
    }

    pub fn puts_zero(&self) -> bool {
        match self {
            Call::Insert { value, .. } => *value == 0,
            Call::Batch { edits, .. } => edits.chunks_exact(3).any(|record| record[0] == 1 && record[2] == 0),
            _ => false,
        }
    }

    pub fn rule_known(&self) -> bool {
        match *self {
            Call::Union { rule, .. } => rule <= 4,
            Call::Difference { rule, cancel, .. } => rule <= 3 && cancel <= 1 && !(rule == 2 && cancel == 1),
            _ => true,
        }
    }
}
