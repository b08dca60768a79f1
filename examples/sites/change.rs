//! A site change: the standby's version is the one that is used from now on. What stands in it is held against the calls that are really open.

use crate::calls::Call;
use crate::counts::Counts;
use crate::ksk::{Edit, Entry, Refusal};
use crate::report;
use crate::shift::Shift;
use crate::site::{Site, OPEN, SENT};
use std::collections::BTreeMap;
use std::error::Error;

/// Calls and minutes that stand in a version and should not, or should and do not.
#[derive(Default)]
pub struct Gap {
    pub stranded_calls: u64,
    pub stranded_minutes: u64,
    pub missing_calls: u64,
    pub missing_minutes: u64,
}

impl Gap {
    pub fn between(entries: &[Entry], open: &BTreeMap<u32, Call>) -> Gap {
        let mut gap = Gap::default();
        let mut missing: BTreeMap<u32, u64> = open.values().map(|call| (call.number, call.minutes as u64)).collect();
        for entry in entries {
            let minutes = missing.remove(&entry.key).unwrap_or(0);
            gap.note(entry.left as u64, minutes);
        }
        for minutes in missing.into_values() {
            gap.note(0, minutes);
        }
        gap
    }

    /// A call for which a version holds some minutes though it has reserved others; 0 for none.
    fn note(&mut self, holds: u64, reserved: u64) {
        self.stranded_calls += (holds > reserved) as u64;
        self.stranded_minutes += holds.saturating_sub(reserved);
        self.missing_calls += (reserved > holds) as u64;
        self.missing_minutes += reserved.saturating_sub(holds);
    }

    pub fn is_none(&self) -> bool {
        self.stranded_calls + self.missing_calls == 0
    }

    fn count(&self, counts: &mut Counts) {
        counts.changes += 1;
        counts.stranded_calls += self.stranded_calls;
        counts.stranded_minutes += self.stranded_minutes;
        counts.missing_calls += self.missing_calls;
        counts.missing_minutes += self.missing_minutes;
    }
}

/// This site is the primary from now on.
pub fn take_over(site: &mut Site, shift: &mut Shift) -> Result<(), Box<dyn Error>> {
    let entries = site.entries()?;
    let gap = Gap::between(&entries, shift.calls.open());
    gap.count(&mut site.counts);
    site.counts.waited += shift.waited;
    shift.stranded += gap.stranded_minutes;
    let surplus = shift.books.surplus(&site.block)?;
    let off = surplus.iter().filter(|minutes| **minutes != 0).count();
    report::change(site, shift, entries.len(), &gap, off);
    let sum: i64 = surplus.iter().sum();
    site.counts.check(sum == gap.stranded_minutes as i64 - gap.missing_minutes as i64, "the accounts are off by what is stranded less what is missing");
    if site.options.complete() {
        site.counts.check(gap.is_none(), "nothing is stranded or missing");
        site.counts.check(off == 0, "the minutes of every account add up");
    } else {
        set_right(site, shift)?;
    }
    site.block.copy(SENT, OPEN)?;
    Ok(())
}

/// Where something may be stranded somebody sets the version right by hand, so that each site change is counted by itself.
fn set_right(site: &mut Site, shift: &Shift) -> Result<(), Refusal> {
    let puts: Vec<Edit> = shift.calls.open().values().map(|call| Edit::Put { key: call.number, value: call.minutes }).collect();
    site.block.clear(OPEN)?;
    for part in puts.chunks(512) {
        site.block.batch(OPEN, OPEN, part)?;
    }
    Ok(())
}
