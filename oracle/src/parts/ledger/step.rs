//! One operation on both sides: the answer, every word of ledger and block, and the totals of every account.

use super::met::Met;
use crate::history::same_words;
use crate::ledger::plain::{self, Account, Ledger, Refusal};
use crate::ledger::store::{entries, Store};
use crate::ledger::{self, Answer, Op};

/// A ledger's slice and what it should say.
#[derive(Clone)]
pub struct Book {
    pub slice: Vec<u64>,
    pub plain: Ledger,
}

impl Book {
    pub fn of(slice: Vec<u64>) -> Self {
        let plain = Ledger::of(&slice);
        Book { slice, plain }
    }

    /// What the account should hold; zeros where there is none.
    pub fn account(&self, account: u32) -> Account {
        self.plain.0.as_ref().and_then(|accounts| accounts.get(account as usize).copied()).unwrap_or_default()
    }
}

/// A block and what it should hold.
#[derive(Clone)]
pub struct Shelf {
    pub block: Vec<u32>,
    pub store: Store,
}

impl Shelf {
    pub fn of(block: Vec<u32>) -> Self {
        let store = Store::of(&block);
        Shelf { block, store }
    }
}

pub fn step(book: &mut Book, shelf: &mut Shelf, op: &Op, met: &mut Met) -> Result<Answer, String> {
    let (long, words) = (book.slice.len(), shelf.block.len());
    let whole = |what| format!("{op:?} on {long} and {words} words: {what}");
    let (mut slice, mut block) = (book.slice.clone(), shelf.block.clone());
    let told = book.plain.run(&mut shelf.store, op);
    met.outcome(op, &told);
    let answer = ledger::run(&mut slice, &mut block, op);
    judge(book, shelf, &told, answer, &slice, &block).map_err(whole)?;
    match op.place() {
        Some((version, _)) if told.is_ok() => held(&shelf.store, &block, version).map_err(whole)?,
        _ => {}
    }
    (book.slice, shelf.block) = (slice, block);
    Ok(answer)
}

/// The book and the shelf still have the words that stood there before.
fn judge(
    book: &Book,
    shelf: &Shelf,
    told: &Result<Account, Refusal>,
    answer: Answer,
    slice: &[u64],
    block: &[u32],
) -> Result<(), String> {
    if let Some(odd) = &shelf.store.odd {
        return Err(odd.clone());
    }
    let expected = plain::answer(told);
    if answer != expected {
        return Err(format!("document 02 says {expected:?}, the export {answer:?}"));
    }
    if told.is_err() {
        same("ledger after a refusal", &book.slice, slice)?;
        same_words("block after a refusal", &shelf.block, block)?;
    }
    same("ledger", book.plain.words().as_ref().unwrap_or(&book.slice), slice)?;
    same_words("block", &shelf.store.block, block)?;
    asked(&book.plain, slice)
}

/// The account question for each account there is, and for the first that is not.
fn asked(plain: &Ledger, slice: &[u64]) -> Result<(), String> {
    let accounts = plain.0.as_deref().unwrap_or_default();
    let known = accounts.iter().map(|&account| Ok(account));
    let number = if plain.0.is_some() { plain::ACCOUNT } else { plain::ACCOUNTS };
    let unknown = Err(Refusal { number, table: 0, total: "" });
    for (account, told) in known.chain([unknown]).enumerate() {
        let (expected, answer) = (plain::answer(&told), ledger::totals(slice, account as u32));
        if answer != expected {
            return Err(format!("account {account} should be {expected:?}, the export says {answer:?}"));
        }
    }
    Ok(())
}

/// The version holds what should be open, read off the words.
pub fn held(store: &Store, block: &[u32], version: u32) -> Result<(), String> {
    if entries(block, version) == store.open[version as usize] {
        Ok(())
    } else {
        Err(format!("version {version} does not hold the open calls"))
    }
}

fn same(what: &str, expected: &[u64], words: &[u64]) -> Result<(), String> {
    match (0..words.len()).find(|&at| words[at] != expected[at]) {
        None => Ok(()),
        Some(at) => Err(format!("{what} word {at} is {}, not {}", words[at], expected[at])),
    }
}
