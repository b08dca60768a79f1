//! All that goes to the other site at a site change beside the table: the clock, the accounts, and the calls that are really open.

use crate::books::Books;
use crate::calls::{Calls, ACCOUNTS, BEGIN_A_TICK};
use crate::chance::Chance;
use crate::counts::Counts;
use crate::ksk::{Block, Declined};

pub struct Shift {
    pub clock: u64,
    /// Batch numbers go on at the other site: none is used again.
    pub batch: u32,
    pub changes: u64,
    /// Ticks for which edits have waited before this site change.
    pub waited: u64,
    /// Minutes that the site changes so far have stranded.
    pub stranded: u64,
    pub books: Books,
    pub calls: Calls,
}

impl Shift {
    pub fn first(seed: u64) -> Result<Shift, Declined> {
        Ok(Shift { clock: 0, batch: 0, changes: 0, waited: 0, stranded: 0, books: Books::fresh()?, calls: Calls::none(Chance::stream(seed, 0)) })
    }

    /// A tenth of a second: calls end, others begin.
    pub fn tick(&mut self, block: &mut Block, counts: &mut Counts) -> Result<(), Declined> {
        self.clock += 1;
        for call in self.calls.end(self.clock) {
            self.books.end(block, &call, counts)?;
        }
        for _ in 0..BEGIN_A_TICK {
            let call = self.calls.begin(self.clock);
            self.books.begin(block, &call, counts)?;
        }
        Ok(())
    }

    pub fn words(&self) -> Vec<u64> {
        let mut words = vec![self.clock, self.batch as u64, self.changes, self.waited, self.stranded];
        words.extend(self.books.words());
        words.extend(self.calls.words());
        words
    }

    pub fn of_words(words: &[u64]) -> Shift {
        let (books, calls) = words[5..].split_at(3 * ACCOUNTS as usize);
        let (books, calls) = (Books::of_words(books), Calls::of_words(calls));
        Shift { clock: words[0], batch: words[1] as u32, changes: words[2], waited: words[3], stranded: words[4], books, calls }
    }
}
