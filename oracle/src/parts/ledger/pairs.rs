//! Calls in which several checks fail at once: the first in the document's order decides.

use super::drawn::{self, About};
use super::met::Met;
use super::step::{step, Book, Shelf};
use crate::block::{length, place, Block};
use crate::call::Call;
use crate::exports;
use crate::ledger::plain::{ABOVE, ACCOUNT, ACCOUNTS, EDIT_REFUSED, FREE, LOOKUP, NOT_OPEN, OPEN, TOTAL};
use crate::ledger::{Answer, Op};
use crate::parts::room::filled;
use crate::parts::uneven::{self, Lean};
use crate::parts::Compared;
use crate::random::Random;
use crate::rules::Supply;
use crate::sound;
use crate::table::Table;

/// The value under a key, read off words that need not be sound.
fn found(block: &[u32], version: u32, key: u32) -> Option<u32> {
    if version > 15 || block.len() < length(0) {
        return None;
    }
    let words = Block(block);
    let mut link = words.root(version as usize);
    for _ in 0..64 {
        if link == 0 || link as usize > words.n() || place(words.n(), link + 1) > block.len() {
            return None;
        }
        let node = words.node(link);
        if node.key == key {
            return Some(node.value);
        }
        link = if key < node.key { node.left } else { node.right };
    }
    None
}

/// Whether the table refuses the operation's edit, asked on a copy.
fn edit_refused(block: &[u32], op: &Op) -> bool {
    let call = match *op {
        Op::Reserve { version, call, minutes } => Call::Insert { dest: version, source: version, key: call, value: minutes },
        Op::Settle { version, call, .. } | Op::Release { version, call } => {
            Call::Remove { dest: version, source: version, key: call }
        }
        _ => return false,
    };
    exports::run(&mut block.to_vec(), &mut [], &call).number != 0
}

fn above(held: u64, more: u64) -> bool {
    held.checked_add(more).is_none()
}

/// Each check on its own, whatever those before it say, as far as the words can be read. Least first.
fn failing(slice: &[u64], block: &[u32], op: &Op) -> Vec<u32> {
    let n = slice.len() / 3;
    let account = op.account().unwrap_or(0) as usize;
    let [topped, spent, free] = slice.chunks_exact(3).nth(account).map_or([0; 3], |words| words.try_into().unwrap());
    let open = op.place().and_then(|(version, call)| found(block, version, call));
    let refused = op.place().is_some_and(|(version, _)| version > 15 || sound::check(block) != 0);
    let reserved = open.unwrap_or(0);
    let rest = |used: u32| u64::from(reserved.saturating_sub(used));
    let mut checks = vec![
        (ACCOUNTS, slice.len() % 3 != 0 || n == 0 || n > 256),
        (ACCOUNT, account >= n),
        (LOOKUP, refused),
        (EDIT_REFUSED, edit_refused(block, op)),
    ];
    match *op {
        Op::TopUp { minutes, .. } => checks.push((TOTAL, above(topped, minutes) || above(free, minutes))),
        Op::Reserve { minutes, .. } => checks.extend([(OPEN, open.is_some()), (FREE, u64::from(minutes) > free)]),
        Op::Settle { used, .. } => {
            checks.extend([(NOT_OPEN, open.is_none()), (ABOVE, used > reserved)]);
            checks.push((TOTAL, account < n && (above(spent, used.into()) || above(free, rest(used)))));
        }
        Op::Release { .. } => {
            checks.extend([(NOT_OPEN, open.is_none()), (TOTAL, account < n && above(free, rest(0)))]);
        }
        _ => {}
    }
    let mut numbers: Vec<u32> = checks.into_iter().filter(|&(_, fails)| fails).map(|(number, _)| number).collect();
    numbers.sort();
    numbers
}

/// An uneven tree of calls in one version, those of accounts that are not there too, and room for the rest or for none.
fn block(random: &mut Random, version: u32, accounts: usize) -> Vec<u32> {
    let mut table = Table::fresh(32);
    let mut keys: Vec<u32> =
        (0..random.below(16)).map(|_| (random.below(accounts + 2) as u32) << 24 | random.below(4) as u32).collect();
    keys.sort();
    keys.dedup();
    let lean = random.pick(&[Lean::Left, Lean::Right, Lean::Zigzag, Lean::Anyhow]);
    table.versions[version as usize] = uneven::tree(random, &mut Supply::new(table.free()), &keys, lean, 4);
    let left = if random.once_in(3) { table.free().len() } else { random.below(3) };
    filled(random, &table, left).words()
}

/// Slice, block and operation, each of which is wrong now and then.
fn wrong(random: &mut Random, met: &mut Met) -> (Book, Shelf, Op) {
    let (accounts, version) = (random.pick(&[1, 2, 3, 5]), random.below(15) as u32);
    let mut book = Book::of((0..3 * accounts).map(|_| drawn::total(random)).collect());
    let mut shelf = Shelf::of(block(random, version, accounts));
    let named = if random.once_in(6) { drawn::beyond(random) } else { version };
    let op = About { book: &book, shelf: &shelf, version: named, calls: 4 }.op(random);
    if random.once_in(3) {
        drawn::lengthened(random, &mut book.slice);
        book = Book::of(book.slice);
    }
    if random.once_in(3) {
        drawn::damaged(random, &mut shelf.block);
        shelf = Shelf::of(shelf.block);
        (shelf.store.fault == 0).then(|| met.note("sound after a change"));
    }
    (book, shelf, op)
}

/// Document 01's order beside 23, where the version is not there either.
fn note(op: &Op, answer: Answer, met: &mut Met) {
    match (op.place(), answer.number, answer.table) {
        (Some((16.., _)), LOOKUP, 1) => met.note("shape before version"),
        (Some((16.., _)), LOOKUP, 2) => met.note("damage before version"),
        _ => {}
    }
}

pub fn round(random: &mut Random, met: &mut Met) -> Compared {
    const CALLS: u64 = 25;
    for _ in 0..CALLS {
        let (mut book, mut shelf, op) = wrong(random, met);
        let numbers = failing(&book.slice, &shelf.block, &op);
        let answer = step(&mut book, &mut shelf, &op, met)?;
        if answer.number != numbers.first().copied().unwrap_or(0) {
            return Err(format!("{op:?}: {} where the checks {numbers:?} fail", answer.number));
        }
        met.failing(&op, &numbers);
        note(&op, answer, met);
    }
    Ok(CALLS)
}
