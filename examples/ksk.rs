//! The table's calls with safe types, over the exports of include/ksk.h.

use std::error::Error;
use std::fmt;
use std::os::raw::c_uint;

#[link(name = "switch", kind = "static")]
extern "C" {
    fn ksk_audit(block: *const u32, words: usize) -> c_uint;
    fn ksk_fresh(block: *mut u32, words: usize, n: c_uint) -> c_uint;
    fn ksk_lookup(block: *const u32, words: usize, version: c_uint, key: c_uint, found: *mut u32, value: *mut u32) -> c_uint;
    fn ksk_size(block: *const u32, words: usize, version: c_uint, size: *mut u32) -> c_uint;
    fn ksk_held(block: *const u32, words: usize, version: c_uint, minutes: *mut u64) -> c_uint;
    fn ksk_held_between(block: *const u32, words: usize, version: c_uint, first: c_uint, last: c_uint, minutes: *mut u64) -> c_uint;
    fn ksk_insert(block: *mut u32, words: usize, dest: c_uint, source: c_uint, key: c_uint, value: c_uint, had: *mut u32, old: *mut u32) -> c_uint;
    fn ksk_remove(block: *mut u32, words: usize, dest: c_uint, source: c_uint, key: c_uint, had: *mut u32, old: *mut u32) -> c_uint;
    fn ksk_copy(block: *mut u32, words: usize, dest: c_uint, source: c_uint) -> c_uint;
    fn ksk_clear(block: *mut u32, words: usize, version: c_uint) -> c_uint;
    fn ksk_batch(block: *mut u32, words: usize, dest: c_uint, source: c_uint, edits: *const u32, edit_words: usize) -> c_uint;
    fn ksk_restore(block: *mut u32, words: usize, version: c_uint, text: *const u8, bytes: usize, line: *mut u64) -> c_uint;
    fn ksk_union(block: *mut u32, words: usize, dest: c_uint, left: c_uint, right: c_uint, rule: c_uint) -> c_uint;
    fn ksk_difference(block: *mut u32, words: usize, dest: c_uint, left: c_uint, right: c_uint, rule: c_uint, cancel: c_uint) -> c_uint;
    fn ksk_list(block: *const u32, words: usize, left: c_uint, right: c_uint, start: c_uint, out: *mut u32, out_words: usize, written: *mut u32, total: *mut u32) -> c_uint;
    fn ksk_frames(block: *const u32, words: usize, from: c_uint, to: c_uint, batch: c_uint, start: c_uint, out: *mut u8, out_bytes: usize, written: *mut u32, total: *mut u32) -> c_uint;
    fn ksk_same(block: *const u32, words: usize, from: c_uint, to: c_uint, same: *mut u32) -> c_uint;
    fn ksk_parse(line: *const u8, bytes: usize, batch: *mut u32, index: *mut u32, count: *mut u32, kind: *mut u32, key: *mut u32, value: *mut u32, place: *mut u32) -> c_uint;
    fn ksk_begin(inbox: *mut u32, words: usize, batch: c_uint) -> c_uint;
    fn ksk_receive(block: *mut u32, words: usize, inbox: *mut u32, inbox_words: usize, version: c_uint, line: *const u8, bytes: usize, repeat: *mut u32, missing: *mut u32, place: *mut u32) -> c_uint;
    fn ksk_missing(inbox: *const u32, words: usize, missing: *mut u32) -> c_uint;
    fn ksk_ask(inbox: *const u32, words: usize, start: c_uint, out: *mut u8, out_bytes: usize, written: *mut u32, total: *mut u32) -> c_uint;
    fn ksk_resend(block: *const u32, words: usize, from: c_uint, to: c_uint, batch: c_uint, request: *const u8, request_bytes: usize, start: c_uint, out: *mut u8, out_bytes: usize, written: *mut u32, total: *mut u32) -> c_uint;
    fn ksk_ledger_fresh(ledger: *mut u64, words: usize, accounts: c_uint) -> c_uint;
    fn ksk_ledger_top_up(ledger: *mut u64, words: usize, account: c_uint, minutes: u64) -> c_uint;
    fn ksk_ledger_reserve(ledger: *mut u64, ledger_words: usize, block: *mut u32, words: usize, version: c_uint, call: c_uint, minutes: c_uint, table: *mut u32) -> c_uint;
    fn ksk_ledger_settle(ledger: *mut u64, ledger_words: usize, block: *mut u32, words: usize, version: c_uint, call: c_uint, used: c_uint, table: *mut u32) -> c_uint;
    fn ksk_ledger_release(ledger: *mut u64, ledger_words: usize, block: *mut u32, words: usize, version: c_uint, call: c_uint, table: *mut u32) -> c_uint;
    fn ksk_ledger_account(ledger: *const u64, words: usize, account: c_uint, topped: *mut u64, spent: *mut u64, free: *mut u64) -> c_uint;
    fn ksk_kiosk_fresh(kiosk: *mut u32, words: usize) -> c_uint;
    fn ksk_kiosk_lookup(kiosk: *const u32, words: usize, key: c_uint, found: *mut u32, value: *mut u32) -> c_uint;
    fn ksk_kiosk_insert(kiosk: *mut u32, words: usize, key: c_uint, value: c_uint, had: *mut u32, old: *mut u32) -> c_uint;
    fn ksk_kiosk_remove(kiosk: *mut u32, words: usize, key: c_uint, had: *mut u32, old: *mut u32) -> c_uint;
    fn ksk_kiosk_list(kiosk: *const u32, words: usize, start: c_uint, out: *mut u32, out_words: usize, written: *mut u32, total: *mut u32) -> c_uint;
    fn ksk_kiosk_receive(kiosk: *mut u32, words: usize, inbox: *mut u32, inbox_words: usize, line: *const u8, bytes: usize, repeat: *mut u32, missing: *mut u32, place: *mut u32) -> c_uint;
}

/// Why a call was refused. Nothing has changed.
#[derive(Clone, Copy, Debug, PartialEq, Eq)]
pub enum Refusal {
    Shape,
    Damaged,
    Version,
    Rule,
    NoRoom,
    TooDeep,
    Frame,
    Batch,
    Count,
    /// A line's first bad digit stands at this place, 0 to 33.
    Digit(u32),
    Kind,
    Range,
    Zero,
    Sum,
    Request,
    Edit,
    Line,
    Order,
}

impl fmt::Display for Refusal {
    fn fmt(&self, f: &mut fmt::Formatter) -> fmt::Result {
        write!(f, "the table refused: {self:?}")
    }
}

impl Error for Refusal {}

/// Why a text was not restored, and the number of the line that is at fault, from 0, if one is.
#[derive(Clone, Copy, Debug, PartialEq, Eq)]
pub struct NotRestored {
    pub why: Refusal,
    pub line: Option<u64>,
}

impl fmt::Display for NotRestored {
    fn fmt(&self, f: &mut fmt::Formatter) -> fmt::Result {
        match self.line {
            Some(line) => write!(f, "line {line}: {}", self.why),
            None => self.why.fmt(f),
        }
    }
}

impl Error for NotRestored {}

/// The value of a common key in a union; a sum that does not fit is `Refusal::Sum`.
#[derive(Clone, Copy, Debug)]
pub enum Merge {
    Left = 0,
    Right = 1,
    Smaller = 2,
    Larger = 3,
    Sum = 4,
}

/// What becomes of a common key in a difference.
#[derive(Clone, Copy, Debug)]
pub enum Less {
    Drop = 0,
    DropIfEqual = 1,
    Left = 2,
    Minus = 3,
}

/// One edit of a batch.
#[derive(Clone, Copy, Debug)]
pub enum Edit {
    Put { key: u32, value: u32 },
    Remove { key: u32 },
}

/// One entry of a listing; `right` is the right side's value where the key is common.
#[derive(Clone, Copy, Debug, PartialEq, Eq)]
pub struct Entry {
    pub key: u32,
    pub left: u32,
    pub right: Option<u32>,
}

/// A line that was accepted: whether it had been heard before, and how many are missing.
#[derive(Clone, Copy, Debug, PartialEq, Eq)]
pub struct Heard {
    pub again: bool,
    pub missing: u32,
}

/// The place is that of a line's bad digit; calls that read no line have none.
fn heard(number: u32, place: u32) -> Result<(), Refusal> {
    Err(match number {
        0 => return Ok(()),
        1 => Refusal::Shape,
        2 => Refusal::Damaged,
        3 => Refusal::Version,
        4 => Refusal::Rule,
        5 => Refusal::NoRoom,
        6 => Refusal::TooDeep,
        7 => Refusal::Frame,
        8 => Refusal::Batch,
        9 => Refusal::Count,
        10 => Refusal::Digit(place),
        11 => Refusal::Kind,
        12 => Refusal::Range,
        13 => Refusal::Zero,
        14 => Refusal::Sum,
        15 => Refusal::Request,
        16 => Refusal::Edit,
        17 => Refusal::Line,
        18 => Refusal::Order,
        other => unreachable!("the table gives numbers 0 to 18, not {other}"),
    })
}

fn done(number: u32) -> Result<(), Refusal> {
    heard(number, 0)
}

fn found(had: u32, value: u32) -> Option<u32> {
    (had == 1).then_some(value)
}

fn lines(bytes: &[u8]) -> Vec<[u8; 35]> {
    bytes.chunks(35).map(|line| line.try_into().expect("lines are 35 bytes")).collect()
}

/// A block of N nodes with its sixteen versions.
pub struct Block {
    words: Vec<u32>,
}

impl Block {
    /// Sixteen empty versions in `n` nodes, a multiple of 32 from 32 to 4,096.
    pub fn fresh(n: u32) -> Result<Block, Refusal> {
        let words = 17 + n as usize / 32 + 8 * n as usize;
        let mut block = Block { words: vec![0; words] };
        done(unsafe { ksk_fresh(block.words.as_mut_ptr(), block.words.len(), n) })?;
        Ok(block)
    }

    /// Whether the block is sound: what every other call asks first.
    pub fn audit(&self) -> Result<(), Refusal> {
        done(unsafe { ksk_audit(self.words.as_ptr(), self.words.len()) })
    }

    pub fn lookup(&self, version: u32, key: u32) -> Result<Option<u32>, Refusal> {
        let (mut had, mut value) = (0, 0);
        done(unsafe { ksk_lookup(self.words.as_ptr(), self.words.len(), version, key, &mut had, &mut value) })?;
        Ok(found(had, value))
    }

    pub fn size(&self, version: u32) -> Result<u32, Refusal> {
        let mut size = 0;
        done(unsafe { ksk_size(self.words.as_ptr(), self.words.len(), version, &mut size) })?;
        Ok(size)
    }

    /// The minutes that a version holds.
    pub fn held(&self, version: u32) -> Result<u64, Refusal> {
        let mut minutes = 0;
        done(unsafe { ksk_held(self.words.as_ptr(), self.words.len(), version, &mut minutes) })?;
        Ok(minutes)
    }

    /// The minutes that it holds from key `first` to key `last`, ends included.
    pub fn held_between(&self, version: u32, first: u32, last: u32) -> Result<u64, Refusal> {
        let mut minutes = 0;
        done(unsafe { ksk_held_between(self.words.as_ptr(), self.words.len(), version, first, last, &mut minutes) })?;
        Ok(minutes)
    }

    /// Version `dest` becomes version `source` with `value` under `key`; answers what stood there. A value of 0 is `Refusal::Zero`.
    pub fn insert(&mut self, dest: u32, source: u32, key: u32, value: u32) -> Result<Option<u32>, Refusal> {
        let (mut had, mut old) = (0, 0);
        done(unsafe { ksk_insert(self.words.as_mut_ptr(), self.words.len(), dest, source, key, value, &mut had, &mut old) })?;
        Ok(found(had, old))
    }

    /// Version `dest` becomes version `source` without `key`; answers what stood there.
    pub fn remove(&mut self, dest: u32, source: u32, key: u32) -> Result<Option<u32>, Refusal> {
        let (mut had, mut old) = (0, 0);
        done(unsafe { ksk_remove(self.words.as_mut_ptr(), self.words.len(), dest, source, key, &mut had, &mut old) })?;
        Ok(found(had, old))
    }

    pub fn copy(&mut self, dest: u32, source: u32) -> Result<(), Refusal> {
        done(unsafe { ksk_copy(self.words.as_mut_ptr(), self.words.len(), dest, source) })
    }

    pub fn clear(&mut self, version: u32) -> Result<(), Refusal> {
        done(unsafe { ksk_clear(self.words.as_mut_ptr(), self.words.len(), version) })
    }

    /// Version `dest` becomes version `source` after the edits, in order: all of them take effect, or none. At most 512.
    pub fn batch(&mut self, dest: u32, source: u32, edits: &[Edit]) -> Result<(), Refusal> {
        let record = |edit: &Edit| match *edit {
            Edit::Put { key, value } => [1, key, value],
            Edit::Remove { key } => [2, key, 0],
        };
        let words: Vec<u32> = edits.iter().flat_map(record).collect();
        done(unsafe { ksk_batch(self.words.as_mut_ptr(), self.words.len(), dest, source, words.as_ptr(), words.len()) })
    }

    /// The version becomes what the lines say: 16 digits and a newline each, key then value, keys ascending.
    pub fn restore(&mut self, version: u32, text: &[u8]) -> Result<(), NotRestored> {
        let mut line = 0;
        done(unsafe { ksk_restore(self.words.as_mut_ptr(), self.words.len(), version, text.as_ptr(), text.len(), &mut line) }).map_err(|why| {
            let faulty = matches!(why, Refusal::Line | Refusal::Zero | Refusal::Order);
            NotRestored { why, line: faulty.then_some(line) }
        })
    }

    pub fn union(&mut self, dest: u32, left: u32, right: u32, rule: Merge) -> Result<(), Refusal> {
        done(unsafe { ksk_union(self.words.as_mut_ptr(), self.words.len(), dest, left, right, rule as u32) })
    }

    /// With `cancel` shared nodes are skipped; it may not go with `Less::Left`.
    pub fn difference(&mut self, dest: u32, left: u32, right: u32, rule: Less, cancel: bool) -> Result<(), Refusal> {
        done(unsafe { ksk_difference(self.words.as_mut_ptr(), self.words.len(), dest, left, right, rule as u32, cancel as u32) })
    }

    /// The whole listing of version `left` against version `right`.
    pub fn list(&self, left: u32, right: u32) -> Result<Vec<Entry>, Refusal> {
        let mut out = vec![0; 4 * self.size(left)? as usize];
        let (mut written, mut total) = (0, 0);
        done(unsafe { ksk_list(self.words.as_ptr(), self.words.len(), left, right, 0, out.as_mut_ptr(), out.len(), &mut written, &mut total) })?;
        Ok(out[..written as usize].chunks(4).map(|e| Entry { key: e[0], left: e[1], right: found(e[2], e[3]) }).collect())
    }

    /// The lines that carry version `from` to version `to`.
    pub fn frames(&self, from: u32, to: u32, batch: u32) -> Result<Vec<[u8; 35]>, Refusal> {
        let mut out = vec![0; 35 * 4096];
        let (mut written, mut total) = (0, 0);
        done(unsafe { ksk_frames(self.words.as_ptr(), self.words.len(), from, to, batch, 0, out.as_mut_ptr(), out.len(), &mut written, &mut total) })?;
        Ok(lines(&out[..written as usize]))
    }

    /// Of the lines that carry version `from` to version `to` those that a request asks for.
    pub fn resend(&self, from: u32, to: u32, batch: u32, request: &[[u8; 35]]) -> Result<Vec<[u8; 35]>, Refusal> {
        let mut out = vec![0; 35 * 4096];
        let (mut written, mut total) = (0, 0);
        let request = request.concat();
        let (block, words) = (self.words.as_ptr(), self.words.len());
        done(unsafe { ksk_resend(block, words, from, to, batch, request.as_ptr(), request.len(), 0, out.as_mut_ptr(), out.len(), &mut written, &mut total) })?;
        Ok(lines(&out[..written as usize]))
    }

    /// Whether version `to` holds the same entries as version `from`; it stops at the first that differs.
    pub fn same(&self, from: u32, to: u32) -> Result<bool, Refusal> {
        let mut same = 0;
        done(unsafe { ksk_same(self.words.as_ptr(), self.words.len(), from, to, &mut same) })?;
        Ok(same == 1)
    }

    /// Hears one line in `version`.
    pub fn receive(&mut self, inbox: &mut Inbox, version: u32, line: &[u8]) -> Result<Heard, Refusal> {
        let (mut again, mut missing, mut place) = (0, 0, 0);
        let (block, words) = (self.words.as_mut_ptr(), self.words.len());
        let number = unsafe {
            ksk_receive(block, words, inbox.words.as_mut_ptr(), inbox.words.len(), version, line.as_ptr(), line.len(), &mut again, &mut missing, &mut place)
        };
        heard(number, place)?;
        Ok(Heard { again: again == 1, missing })
    }
}

/// The fields of a line.
#[derive(Clone, Copy, Debug, PartialEq, Eq, Default)]
pub struct Frame {
    pub batch: u32,
    pub index: u32,
    pub count: u32,
    pub kind: u32,
    pub key: u32,
    pub value: u32,
}

impl Frame {
    /// Reads one line on its own, or says what is wrong with it.
    pub fn parse(line: &[u8]) -> Result<Frame, Refusal> {
        let (mut f, mut place) = (Frame::default(), 0);
        let Frame { batch, index, count, kind, key, value } = &mut f;
        let number = unsafe { ksk_parse(line.as_ptr(), line.len(), batch, index, count, kind, key, value, &mut place) };
        heard(number, place)?;
        Ok(f)
    }
}

/// What a standby has heard of a batch.
pub struct Inbox {
    words: [u32; 130],
}

impl Inbox {
    pub fn begin(batch: u32) -> Inbox {
        let mut inbox = Inbox { words: [0; 130] };
        done(unsafe { ksk_begin(inbox.words.as_mut_ptr(), inbox.words.len(), batch) }).expect("an inbox has 130 words");
        inbox
    }

    /// How many lines are missing, or `None` while no line has been accepted.
    pub fn missing(&self) -> Result<Option<u32>, Refusal> {
        let mut missing = 0;
        done(unsafe { ksk_missing(self.words.as_ptr(), self.words.len(), &mut missing) })?;
        Ok((missing != u32::MAX).then_some(missing))
    }

    /// The request for what is missing; one line that says complete if nothing is.
    pub fn ask(&self) -> Result<Vec<[u8; 35]>, Refusal> {
        let mut out = vec![0; 35 * 2048];
        let (mut written, mut total) = (0, 0);
        done(unsafe { ksk_ask(self.words.as_ptr(), self.words.len(), 0, out.as_mut_ptr(), out.len(), &mut written, &mut total) })?;
        Ok(lines(&out[..written as usize]))
    }
}

/// Why an operation of the ledger was refused, with the table's own refusal where it was the table's. Nothing has changed.
#[derive(Clone, Copy, Debug, PartialEq, Eq)]
pub enum Declined {
    Accounts,
    Account,
    Lookup(Refusal),
    Open,
    NotOpen,
    Free,
    Above,
    Total,
    EditRefused(Refusal),
}

impl fmt::Display for Declined {
    fn fmt(&self, f: &mut fmt::Formatter) -> fmt::Result {
        write!(f, "the ledger refused: {self:?}")
    }
}

impl Error for Declined {}

fn carried(number: u32, table: u32) -> Result<(), Declined> {
    let refusal = || done(table).expect_err("beside 23 and 29 stands the table's refusal");
    Err(match number {
        0 => return Ok(()),
        21 => Declined::Accounts,
        22 => Declined::Account,
        23 => Declined::Lookup(refusal()),
        24 => Declined::Open,
        25 => Declined::NotOpen,
        26 => Declined::Free,
        27 => Declined::Above,
        28 => Declined::Total,
        29 => Declined::EditRefused(refusal()),
        other => unreachable!("the ledger gives 0 and 21 to 29, not {other}"),
    })
}

/// An account's minutes.
#[derive(Clone, Copy, Debug, PartialEq, Eq)]
pub struct Totals {
    pub topped: u64,
    pub spent: u64,
    pub free: u64,
}

/// Accounts above one version of a block, which only the ledger edits. A call number's top eight bits are its account.
pub struct Ledger {
    words: Vec<u64>,
}

impl Ledger {
    /// 1 to 256 accounts with nothing in them.
    pub fn fresh(accounts: u32) -> Result<Ledger, Declined> {
        let mut ledger = Ledger { words: vec![0; 3 * accounts.min(257) as usize] };
        carried(unsafe { ksk_ledger_fresh(ledger.words.as_mut_ptr(), ledger.words.len(), accounts) }, 0)?;
        Ok(ledger)
    }

    /// The words that a host keeps safe, three an account: topped-up, spent, free.
    pub fn words(&self) -> &[u64] {
        &self.words
    }

    /// A ledger that goes on from kept words. If they are not three for each of 1 to 256 accounts, every operation is `Declined::Accounts`.
    pub fn of_words(words: Vec<u64>) -> Ledger {
        Ledger { words }
    }

    pub fn top_up(&mut self, account: u32, minutes: u64) -> Result<(), Declined> {
        carried(unsafe { ksk_ledger_top_up(self.words.as_mut_ptr(), self.words.len(), account, minutes) }, 0)
    }

    /// A call opens.
    pub fn reserve(&mut self, block: &mut Block, version: u32, call: u32, minutes: u32) -> Result<(), Declined> {
        let mut table = 0;
        let number = unsafe { ksk_ledger_reserve(self.words.as_mut_ptr(), self.words.len(), block.words.as_mut_ptr(), block.words.len(), version, call, minutes, &mut table) };
        carried(number, table)
    }

    /// A call ends: `used` minutes are spent, the rest is free again.
    pub fn settle(&mut self, block: &mut Block, version: u32, call: u32, used: u32) -> Result<(), Declined> {
        let mut table = 0;
        let number = unsafe { ksk_ledger_settle(self.words.as_mut_ptr(), self.words.len(), block.words.as_mut_ptr(), block.words.len(), version, call, used, &mut table) };
        carried(number, table)
    }

    /// A call is dropped: all of it is free again.
    pub fn release(&mut self, block: &mut Block, version: u32, call: u32) -> Result<(), Declined> {
        let mut table = 0;
        let number = unsafe { ksk_ledger_release(self.words.as_mut_ptr(), self.words.len(), block.words.as_mut_ptr(), block.words.len(), version, call, &mut table) };
        carried(number, table)
    }

    pub fn account(&self, account: u32) -> Result<Totals, Declined> {
        let [mut topped, mut spent, mut free] = [0; 3];
        carried(unsafe { ksk_ledger_account(self.words.as_ptr(), self.words.len(), account, &mut topped, &mut spent, &mut free) }, 0)?;
        Ok(Totals { topped, spent, free })
    }
}

/// A table of at most 64 entries with no versions and no nodes.
pub struct Kiosk {
    words: [u32; 129],
}

impl Kiosk {
    pub fn fresh() -> Kiosk {
        let mut kiosk = Kiosk { words: [0; 129] };
        done(unsafe { ksk_kiosk_fresh(kiosk.words.as_mut_ptr(), kiosk.words.len()) }).expect("a kiosk has 129 words");
        kiosk
    }

    pub fn lookup(&self, key: u32) -> Result<Option<u32>, Refusal> {
        let (mut had, mut value) = (0, 0);
        done(unsafe { ksk_kiosk_lookup(self.words.as_ptr(), self.words.len(), key, &mut had, &mut value) })?;
        Ok(found(had, value))
    }

    /// Puts `value` under `key`; answers what stood there. A value of 0 is `Refusal::Zero`, a new key that meets 64 entries `Refusal::NoRoom`.
    pub fn insert(&mut self, key: u32, value: u32) -> Result<Option<u32>, Refusal> {
        let (mut had, mut old) = (0, 0);
        done(unsafe { ksk_kiosk_insert(self.words.as_mut_ptr(), self.words.len(), key, value, &mut had, &mut old) })?;
        Ok(found(had, old))
    }

    /// Takes `key` out; answers what stood there.
    pub fn remove(&mut self, key: u32) -> Result<Option<u32>, Refusal> {
        let (mut had, mut old) = (0, 0);
        done(unsafe { ksk_kiosk_remove(self.words.as_mut_ptr(), self.words.len(), key, &mut had, &mut old) })?;
        Ok(found(had, old))
    }

    /// All entries, ascending.
    pub fn list(&self) -> Result<Vec<Entry>, Refusal> {
        let mut out = [0; 4 * 64];
        let (mut written, mut total) = (0, 0);
        done(unsafe { ksk_kiosk_list(self.words.as_ptr(), self.words.len(), 0, out.as_mut_ptr(), out.len(), &mut written, &mut total) })?;
        Ok(out[..written as usize].chunks(4).map(|e| Entry { key: e[0], left: e[1], right: found(e[2], e[3]) }).collect())
    }

    /// Hears one line.
    pub fn receive(&mut self, inbox: &mut Inbox, line: &[u8]) -> Result<Heard, Refusal> {
        let (mut again, mut missing, mut place) = (0, 0, 0);
        let (kiosk, words) = (self.words.as_mut_ptr(), self.words.len());
        let number = unsafe { ksk_kiosk_receive(kiosk, words, inbox.words.as_mut_ptr(), inbox.words.len(), line.as_ptr(), line.len(), &mut again, &mut missing, &mut place) };
        heard(number, place)?;
        Ok(Heard { again: again == 1, missing })
    }
}
