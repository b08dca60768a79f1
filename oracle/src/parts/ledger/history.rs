//! Random histories of some ledgers above one block, with the table's own calls on other versions between the operations.

use super::drawn::{self, About};
use super::met::Met;
use super::step::{held, step, Book, Shelf};
use crate::block::length;
use crate::call::Call;
use crate::exports;
use crate::history::same_words;
use crate::ledger::plain::EDIT_REFUSED;
use crate::ledger::store::{entries, Open};
use crate::ledger::{account_of, totals, Op};
use crate::parts::uneven::{self, Lean};
use crate::parts::Compared;
use crate::random::Random;
use crate::rules::Supply;
use crate::table::Table;
use std::collections::BTreeSet;

struct World {
    books: Vec<Book>,
    /// Each book's version.
    versions: Vec<u32>,
    /// The accepted top-ups of each account of each book.
    topped: Vec<Vec<u128>>,
    shelf: Shelf,
    calls: usize,
    /// From fresh, and each book names its own version only: then the promise holds.
    promised: bool,
    /// Calls that were open once and are no longer, by version.
    closed: BTreeSet<(u32, u32)>,
}

fn fresh_block(n: usize) -> Vec<u32> {
    let mut block = vec![u32::MAX; length(n)];
    assert_eq!(exports::fresh(&mut block, n as u32), 0);
    block
}

/// Every version holds a few calls, some of them for 0 minutes: no reservation puts those, but they may stand there.
fn block_by_hand(random: &mut Random, n: usize, calls: usize) -> Vec<u32> {
    let mut table = Table::fresh(n);
    let mut supply = Supply::new(table.free());
    for tree in &mut table.versions {
        let call = |random: &mut Random| (random.below(3) as u32) << 24 | random.below(calls) as u32;
        let open: BTreeSet<u32> = (0..random.below(n / 24 + 1)).map(|_| call(random)).collect();
        *tree = uneven::tree(random, &mut supply, &Vec::from_iter(open), Lean::Anyhow, 2);
    }
    table.words()
}

/// Fresh, or any words.
fn book(random: &mut Random, shelf: &mut Shelf, fresh: bool, met: &mut Met) -> Result<Book, String> {
    let accounts = random.pick(&[1, 2, 5, 255, 256]);
    let mut book = Book::of((0..3 * accounts).map(|_| drawn::total(random)).collect());
    if fresh {
        step(&mut book, shelf, &Op::Fresh { accounts: accounts as u32 }, met)?;
    }
    Ok(book)
}

impl World {
    fn new(random: &mut Random, n: usize, calls: usize, met: &mut Met) -> Result<Self, String> {
        let (fresh, ledgers) = (random.below(5) < 3, 1 + random.below(3));
        let mut shelf = Shelf::of(if fresh { fresh_block(n) } else { block_by_hand(random, n, calls) });
        let mut numbers: Vec<u32> = (0..16).collect();
        random.shuffle(&mut numbers);
        let versions = numbers[..ledgers].to_vec();
        let books = (0..ledgers).map(|_| book(random, &mut shelf, fresh, met)).collect::<Result<Vec<_>, _>>()?;
        let topped = books.iter().map(|book| vec![0; book.slice.len() / 3]).collect();
        Ok(World { books, versions, topped, shelf, calls, promised: fresh, closed: BTreeSet::new() })
    }

    fn about(&self, book: usize, version: u32) -> About<'_> {
        About { book: &self.books[book], shelf: &self.shelf, version, calls: self.calls }
    }

    fn operate(&mut self, random: &mut Random, met: &mut Met) -> Result<(), String> {
        let at = random.below(self.books.len());
        let version = match random.below(60) {
            0 => drawn::beyond(random),
            1 | 2 if !self.promised => random.below(16) as u32,
            _ => self.versions[at],
        };
        let op = match random.below(300) {
            0 if !self.promised => self.about(at, version).fresh(random),
            _ => self.about(at, version).op(random),
        };
        self.perform(&op, at, met)
    }

    /// A top-up or a small reservation, so that the tree grows.
    fn grow(&mut self, random: &mut Random, met: &mut Met) -> Result<(), String> {
        let at = random.below(self.books.len());
        let account = random.below(self.topped[at].len().min(3)) as u32;
        let call = account << 24 | random.below(self.calls) as u32;
        let op = match random.below(4) {
            0 => Op::TopUp { account, minutes: 40 },
            _ => Op::Reserve { version: self.versions[at], call, minutes: random.below(9) as u32 },
        };
        self.perform(&op, at, met)
    }

    fn perform(&mut self, op: &Op, at: usize, met: &mut Met) -> Result<(), String> {
        self.noted(op, at, met)?;
        if self.promised {
            self.promise(at, met).map_err(|what| format!("after {op:?}: {what}"))?;
        }
        Ok(())
    }

    /// Does the operation, and keeps what the promise is about.
    fn noted(&mut self, op: &Op, at: usize, met: &mut Met) -> Result<(), String> {
        let was = op.place().and_then(|(version, call)| self.shelf.store.open.get(version as usize)?.get(&call).copied());
        let answer = step(&mut self.books[at], &mut self.shelf, op, met)?;
        if answer.number != 0 {
            (answer.number == EDIT_REFUSED && self.promised).then(|| met.note("promise where room was short"));
            return Ok(());
        }
        match *op {
            Op::TopUp { account, minutes } => self.topped[at][account as usize] += u128::from(minutes),
            Op::Reserve { version, call, .. } => {
                self.closed.contains(&(version, call)).then(|| met.note("number used again"));
            }
            Op::Settle { version, call, .. } | Op::Release { version, call } => {
                (was == Some(0)).then(|| met.note("closed with 0 minutes"));
                self.closed.insert((version, call));
            }
            _ => {}
        }
        Ok(())
    }

    /// Free, open and spent make up what was accepted, account by account; the open calls are read off the block's words.
    fn promise(&self, at: usize, met: &mut Met) -> Result<(), String> {
        let mut open = vec![0; 256];
        for (&call, &minutes) in &entries(&self.shelf.block, self.versions[at]) {
            open[account_of(call) as usize] += u128::from(minutes);
        }
        for (account, &accepted) in self.topped[at].iter().enumerate() {
            let [topped, spent, free] = totals(&self.books[at].slice, account as u32).totals.map(u128::from);
            if free + open[account] + spent != accepted || topped != accepted {
                let held = open[account];
                return Err(format!(
                    "account {account}: {free} free, {held} open, {spent} spent, {topped} of {accepted} topped up"
                ));
            }
            (accepted == u64::MAX.into()).then(|| met.note("promise at 2^64 - 1"));
        }
        self.versions.iter().try_for_each(|&version| held(&self.shelf.store, &self.shelf.block, version))
    }

    /// One of the table's own calls on a version that is no ledger's; its sources may be.
    fn beside(&mut self, random: &mut Random) -> Result<(), String> {
        let mut any = || random.below(16) as u32;
        let (dest, left, right) = (any(), any(), any());
        if self.versions.contains(&dest) {
            return Ok(());
        }
        let key = random.below(3) as u32 + (random.word() & 0xff00_0000);
        let call = match random.below(9) {
            0 | 1 => Call::Copy { dest, source: left },
            2 | 3 => Call::Clear { version: dest },
            4 | 5 => Call::Insert { dest, source: left, key, value: random.below(9) as u32 },
            6 => Call::Remove { dest, source: left, key },
            7 => Call::Union { dest, left, right, rule: random.below(4) as u32 },
            _ => Call::Difference { dest, left, right, rule: random.below(2) as u32, cancel: random.below(2) as u32 },
        };
        exports::run(&mut self.shelf.block, &mut [], &call);
        self.shelf.store.follow(&self.shelf.block, dest);
        self.versions.iter().try_for_each(|&version| held(&self.shelf.store, &self.shelf.block, version))
    }

    /// An operation on copies, which are thrown away: another length, another version, a damaged block, or several of these.
    fn stray(&self, random: &mut Random, met: &mut Met) -> Result<(), String> {
        let at = random.below(self.books.len());
        let version = match random.below(6) {
            0 => drawn::beyond(random),
            1 | 2 => random.below(16) as u32,
            _ => self.versions[at],
        };
        let about = self.about(at, version);
        let op = if random.once_in(8) { about.fresh(random) } else { about.op(random) };
        let (mut book, mut shelf) = (self.books[at].clone(), self.shelf.clone());
        if random.once_in(3) {
            drawn::lengthened(random, &mut book.slice);
            book = Book::of(book.slice);
        }
        if random.once_in(2) {
            drawn::damaged(random, &mut shelf.block);
            shelf = Shelf::of(shelf.block);
        }
        step(&mut book, &mut shelf, &op, met).map(drop)
    }

    /// At the end the block is what the maps say in every version.
    fn closing(&self) -> Result<(), String> {
        let held: Vec<Open> = (0..16).map(|version| entries(&self.shelf.block, version)).collect();
        if held != self.shelf.store.open {
            return Err("a version does not hold what it should".into());
        }
        same_words("block at the end", &self.shelf.store.block, &self.shelf.block)
    }
}

fn history(random: &mut Random, mut world: World, operations: u64, met: &mut Met) -> Compared {
    let mut compared = 0;
    while compared < operations {
        match random.below(20) {
            0 => {
                world.beside(random)?;
                continue;
            }
            1 | 2 => world.stray(random, met)?,
            _ => world.operate(random, met)?,
        }
        compared += 1;
    }
    world.closing()?;
    Ok(compared)
}

/// Few nodes: room is often short.
pub fn small(random: &mut Random, met: &mut Met) -> Compared {
    let (n, calls) = (random.pick(&[32, 64]), random.pick(&[2, 5, 12, 40]));
    let world = World::new(random, n, calls, met)?;
    history(random, world, 220, met)
}

/// Hundreds of open calls.
pub fn large(random: &mut Random, met: &mut Met) -> Compared {
    const GROWN: u64 = 500;
    let mut world = World::new(random, 512, 400, met)?;
    for _ in 0..GROWN {
        world.grow(random, met)?;
    }
    if world.shelf.store.open.iter().any(|open| open.len() > 200) {
        met.note("above 200 open calls");
    }
    Ok(GROWN + history(random, world, 700, met)?)
}
