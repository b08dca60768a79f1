//! The accounts: every call reserves in the ledger when it begins, and is settled or dropped when it ends.

use crate::calls::{Call, ACCOUNTS};
use crate::counts::Counts;
use crate::ksk::{Block, Declined, Ledger, Refusal};
use crate::site::OPEN;
use std::error::Error;

/// Who has fewer minutes free than a call needs tops up by so many.
const TOP_UP: u64 = 1000;

pub struct Books {
    ledger: Ledger,
}

impl Books {
    pub fn fresh() -> Result<Books, Declined> {
        Ok(Books { ledger: Ledger::fresh(ACCOUNTS)? })
    }

    pub fn of_words(words: &[u64]) -> Books {
        Books { ledger: Ledger::of_words(words.to_vec()) }
    }

    pub fn words(&self) -> &[u64] {
        self.ledger.words()
    }

    pub fn begin(&mut self, block: &mut Block, call: &Call, counts: &mut Counts) -> Result<(), Declined> {
        let account = call.number >> 24;
        if self.ledger.account(account)?.free < call.minutes as u64 {
            self.ledger.top_up(account, TOP_UP)?;
            counts.top_ups += 1;
        }
        counts.reserved += 1;
        note(self.ledger.reserve(block, OPEN, call.number, call.minutes), counts)
    }

    pub fn end(&mut self, block: &mut Block, call: &Call, counts: &mut Counts) -> Result<(), Declined> {
        let done = match call.used {
            Some(used) => {
                counts.settled += 1;
                self.ledger.settle(block, OPEN, call.number, used)
            }
            None => {
                counts.dropped += 1;
                self.ledger.release(block, OPEN, call.number)
            }
        };
        note(done, counts)
    }

    /// For each account what it has free, has spent and holds in open reservations, less what it was topped up by: 0 if its minutes add up.
    pub fn surplus(&self, block: &Block) -> Result<Vec<i64>, Box<dyn Error>> {
        let one = |account: u32| -> Result<i64, Box<dyn Error>> {
            let t = self.ledger.account(account)?;
            let held = block.held_between(OPEN, account << 24, account << 24 | 0xff_ffff)?;
            Ok((t.free + t.spent + held) as i64 - t.topped as i64)
        };
        (0..ACCOUNTS).map(one).collect()
    }
}

/// A refusal is counted and the day goes on, unless the block is damaged: that is no matter of the link.
fn note(done: Result<(), Declined>, counts: &mut Counts) -> Result<(), Declined> {
    match done {
        Err(Declined::Lookup(Refusal::Damaged)) => done,
        Err(_) => {
            counts.refused += 1;
            Ok(())
        }
        Ok(()) => Ok(()),
    }
}
