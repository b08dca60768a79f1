//! The ledger of document 02, #101: the operations, their exported calls, and what the document says of each.

pub mod plain;
pub mod store;

#[link(name = "switch", kind = "static")]
extern "C" {
    fn ksk_ledger_fresh(ledger: *mut u64, words: usize, accounts: u32) -> u32;
    fn ksk_ledger_top_up(ledger: *mut u64, words: usize, account: u32, minutes: u64) -> u32;
    fn ksk_ledger_reserve(
        ledger: *mut u64,
        ledger_words: usize,
        block: *mut u32,
        words: usize,
        version: u32,
        call: u32,
        minutes: u32,
        table: *mut u32,
    ) -> u32;
    fn ksk_ledger_settle(
        ledger: *mut u64,
        ledger_words: usize,
        block: *mut u32,
        words: usize,
        version: u32,
        call: u32,
        used: u32,
        table: *mut u32,
    ) -> u32;
    fn ksk_ledger_release(
        ledger: *mut u64,
        ledger_words: usize,
        block: *mut u32,
        words: usize,
        version: u32,
        call: u32,
        table: *mut u32,
    ) -> u32;
    fn ksk_ledger_account(
        ledger: *const u64,
        words: usize,
        account: u32,
        topped: *mut u64,
        spent: *mut u64,
        free: *mut u64,
    ) -> u32;
}

#[derive(Clone, Copy, Debug)]
pub enum Op {
    Fresh { accounts: u32 },
    TopUp { account: u32, minutes: u64 },
    Reserve { version: u32, call: u32, minutes: u32 },
    Settle { version: u32, call: u32, used: u32 },
    Release { version: u32, call: u32 },
    Account { account: u32 },
}

/// A call number's top eight bits.
pub fn account_of(call: u32) -> u32 {
    call >> 24
}

impl Op {
    pub fn name(&self) -> &'static str {
        match self {
            Op::Fresh { .. } => "fresh",
            Op::TopUp { .. } => "top-up",
            Op::Reserve { .. } => "reserve",
            Op::Settle { .. } => "settle",
            Op::Release { .. } => "release",
            Op::Account { .. } => "account",
        }
    }

    /// The account that the operation is about.
    pub fn account(&self) -> Option<u32> {
        match *self {
            Op::Fresh { .. } => None,
            Op::TopUp { account, .. } | Op::Account { account } => Some(account),
            Op::Reserve { call, .. } | Op::Settle { call, .. } | Op::Release { call, .. } => Some(account_of(call)),
        }
    }

    /// The version and the call, where the table is asked.
    pub fn place(&self) -> Option<(u32, u32)> {
        match *self {
            Op::Reserve { version, call, .. } | Op::Settle { version, call, .. } | Op::Release { version, call } => {
                Some((version, call))
            }
            _ => None,
        }
    }
}

/// The number, the table's number beside it, the totals topped-up, spent and free, and how many words behind the two lent
/// slices changed. What an export has no field for is zero.
#[derive(Clone, Copy, PartialEq, Eq, Debug, Default)]
pub struct Answer {
    pub number: u32,
    pub table: u32,
    pub totals: [u64; 3],
    pub behind: usize,
}

/// What fields hold before a call, and what stands behind the lent slices.
const STALE: u32 = 0xdead_beef;
const STALE_LONG: u64 = 0xdead_beef_0bad_cafe;
const BEHIND: usize = 4;

/// Runs an operation on lent slices. The words behind them are not lent.
pub fn run(ledger: &mut Vec<u64>, block: &mut Vec<u32>, op: &Op) -> Answer {
    let (long, words) = (ledger.len(), block.len());
    ledger.resize(long + BEHIND, STALE_LONG);
    block.resize(words + BEHIND, STALE);
    let mut answer = lend(&mut ledger[..long], &mut block[..words], op);
    answer.behind = ledger[long..].iter().filter(|&&word| word != STALE_LONG).count();
    answer.behind += block[words..].iter().filter(|&&word| word != STALE).count();
    ledger.truncate(long);
    block.truncate(words);
    answer
}

/// The same without a look at what stands behind.
pub fn lend(ledger: &mut [u64], block: &mut [u32], op: &Op) -> Answer {
    let (l, long, b, words) = (ledger.as_mut_ptr(), ledger.len(), block.as_mut_ptr(), block.len());
    let mut table = if op.place().is_some() { STALE } else { 0 };
    let number = unsafe {
        match *op {
            Op::Fresh { accounts } => ksk_ledger_fresh(l, long, accounts),
            Op::TopUp { account, minutes } => ksk_ledger_top_up(l, long, account, minutes),
            Op::Reserve { version, call, minutes } => ksk_ledger_reserve(l, long, b, words, version, call, minutes, &mut table),
            Op::Settle { version, call, used } => ksk_ledger_settle(l, long, b, words, version, call, used, &mut table),
            Op::Release { version, call } => ksk_ledger_release(l, long, b, words, version, call, &mut table),
            Op::Account { account } => return totals(ledger, account),
        }
    };
    Answer { number, table, ..Answer::default() }
}

/// An account's totals, asked of a slice that is only read.
pub fn totals(ledger: &[u64], account: u32) -> Answer {
    let [mut topped, mut spent, mut free] = [STALE_LONG; 3];
    let number = unsafe { ksk_ledger_account(ledger.as_ptr(), ledger.len(), account, &mut topped, &mut spent, &mut free) };
    Answer { number, totals: [topped, spent, free], ..Answer::default() }
}
