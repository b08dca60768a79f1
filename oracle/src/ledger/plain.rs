//! Document 02, #101, on unbounded numbers: each operation's checks in the document's order.

use super::store::Store;
use super::{account_of, Answer, Op};

pub const ACCOUNTS: u32 = 21;
pub const ACCOUNT: u32 = 22;
pub const LOOKUP: u32 = 23;
pub const OPEN: u32 = 24;
pub const NOT_OPEN: u32 = 25;
pub const FREE: u32 = 26;
pub const ABOVE: u32 = 27;
pub const TOTAL: u32 = 28;
pub const EDIT_REFUSED: u32 = 29;

#[derive(Clone, Copy, PartialEq, Eq, Debug, Default)]
pub struct Account {
    pub topped: u128,
    pub spent: u128,
    pub free: u128,
}

/// A number, the table's number beside 23 and 29, and beside 28 the total that would not fit.
#[derive(Clone, Copy, PartialEq, Eq, Debug)]
pub struct Refusal {
    pub number: u32,
    pub table: u32,
    pub total: &'static str,
}

fn refusal(number: u32) -> Refusal {
    Refusal { number, table: 0, total: "" }
}

fn by_table(number: u32) -> impl Fn(u32) -> Refusal {
    move |table| Refusal { number, table, total: "" }
}

/// The answer that stands for what the document says.
pub fn answer(told: &Result<Account, Refusal>) -> Answer {
    match *told {
        Ok(Account { topped, spent, free }) => {
            Answer { totals: [topped, spent, free].map(|total| total as u64), ..Answer::default() }
        }
        Err(Refusal { number, table, .. }) => Answer { number, table, ..Answer::default() },
    }
}

/// Two totals with what they grow by: the sums, or which of them would not fit.
fn sums(one: (&'static str, u128, u128), two: (&'static str, u128, u128)) -> Result<(u128, u128), Refusal> {
    let (first, second) = (one.1 + one.2, two.1 + two.2);
    let most = u128::from(u64::MAX);
    let total = match (first <= most, second <= most) {
        (true, true) => return Ok((first, second)),
        (false, true) => one.0,
        (true, false) => two.0,
        (false, false) => "both",
    };
    Err(Refusal { number: TOTAL, table: 0, total })
}

/// The accounts of a slice; none when it is not three words for each of 1 to 256 accounts.
#[derive(Clone, PartialEq, Eq, Debug)]
pub struct Ledger(pub Option<Vec<Account>>);

impl Ledger {
    pub fn of(slice: &[u64]) -> Self {
        let account = |words: &[u64]| {
            let [topped, spent, free] = [words[0] as u128, words[1] as u128, words[2] as u128];
            Account { topped, spent, free }
        };
        let right = (1..=256).any(|accounts| slice.len() == 3 * accounts);
        Ledger(right.then(|| slice.chunks(3).map(account).collect()))
    }

    /// The words of the accounts.
    pub fn words(&self) -> Option<Vec<u64>> {
        let words = |a: &Account| [a.topped, a.spent, a.free].map(|total| u64::try_from(total).unwrap());
        Some(self.0.as_ref()?.iter().flat_map(words).collect())
    }

    fn account(&self, account: u32) -> Result<Account, Refusal> {
        let accounts = self.0.as_ref().ok_or(refusal(ACCOUNTS))?;
        accounts.get(account as usize).copied().ok_or(refusal(ACCOUNT))
    }

    fn put(&mut self, account: u32, new: Account) {
        self.0.as_mut().unwrap()[account as usize] = new;
    }

    /// Does an operation; only the account question has totals to tell.
    pub fn run(&mut self, store: &mut Store, op: &Op) -> Result<Account, Refusal> {
        match *op {
            Op::Fresh { accounts } => self.fresh(accounts),
            Op::TopUp { account, minutes } => self.top_up(account, minutes.into()),
            Op::Reserve { version, call, minutes } => self.reserve(store, version, call, minutes),
            Op::Settle { version, call, used } => self.close(store, version, call, used),
            Op::Release { version, call } => self.close(store, version, call, 0),
            Op::Account { account } => return self.account(account),
        }?;
        Ok(Account::default())
    }

    fn fresh(&mut self, accounts: u32) -> Result<(), Refusal> {
        match &mut self.0 {
            Some(held) if held.len() == accounts as usize => {
                held.fill(Account::default());
                Ok(())
            }
            _ => Err(refusal(ACCOUNTS)),
        }
    }

    fn top_up(&mut self, account: u32, minutes: u128) -> Result<(), Refusal> {
        let mut held = self.account(account)?;
        (held.topped, held.free) = sums(("topped-up", held.topped, minutes), ("free", held.free, minutes))?;
        self.put(account, held);
        Ok(())
    }

    fn reserve(&mut self, store: &mut Store, version: u32, call: u32, minutes: u32) -> Result<(), Refusal> {
        let mut held = self.account(account_of(call))?;
        if store.lookup(version, call).map_err(by_table(LOOKUP))?.is_some() {
            return Err(refusal(OPEN));
        }
        if held.free < minutes.into() {
            return Err(refusal(FREE));
        }
        store.insert(version, call, minutes).map_err(by_table(EDIT_REFUSED))?;
        held.free -= u128::from(minutes);
        self.put(account_of(call), held);
        Ok(())
    }

    /// Settles for some of the minutes; a release is for none of them.
    fn close(&mut self, store: &mut Store, version: u32, call: u32, used: u32) -> Result<(), Refusal> {
        let mut held = self.account(account_of(call))?;
        let Some(reserved) = store.lookup(version, call).map_err(by_table(LOOKUP))? else {
            return Err(refusal(NOT_OPEN));
        };
        if used > reserved {
            return Err(refusal(ABOVE));
        }
        let rest = reserved - used;
        (held.spent, held.free) = sums(("spent", held.spent, used.into()), ("free", held.free, rest.into()))?;
        store.remove(version, call).map_err(by_table(EDIT_REFUSED))?;
        self.put(account_of(call), held);
        Ok(())
    }
}
