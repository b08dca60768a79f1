//! Texts of no line up to more lines than there are nodes, and what can be done with what they leave.

use super::asked::{refusal, restore};
use super::met::Met;
use super::planted::{entries, line, with_line, Flaw};
use crate::call::{Call, Reply};
use crate::history::{Keys, Mix, Trio};
use crate::parts::Compared;
use crate::plain::NO_ROOM;
use crate::random::Random;
use crate::restore::{self, Fault};

/// One text into an empty version of a block with some nodes free: done, or 5 with line 0.
fn fits(random: &mut Random, trio: &mut Trio, version: u32, count: usize, met: &mut Met) -> Result<(), String> {
    let free = trio.table.free().len();
    let entries = entries(random, count);
    let reply = restore(trio, version, &restore::lines(&entries))?;
    let number = if count <= free { 0 } else { NO_ROOM };
    if reply != (Reply { number, ..Reply::default() }) {
        return Err(format!("{count} lines where {free} nodes are free: {reply:?}"));
    }
    met.when(count == free && count > 0, "every node taken");
    met.when(count == free + 1, "one line more than nodes");
    let ends = [entries.first(), entries.last()].map(|entry| entry.map(|entry| entry.0));
    met.when(number == 0 && ends == [Some(0), Some(u32::MAX)], "the keys 0 and 4,294,967,295");
    Ok(())
}

/// Every number of lines on its own fresh block, and no lines over the last.
pub fn every(random: &mut Random, met: &mut Met) -> Compared {
    let n = random.pick(&[32, 64, 96]);
    for count in 0..n + 4 {
        let (mut trio, version) = (Trio::fresh(n), random.below(16) as u32);
        fits(random, &mut trio, version, count, met)?;
        edits(random, &mut trio, 2)?;
        let held = trio.table.versions[version as usize].is_some();
        let reply = restore(&mut trio, version, &[])?;
        met.when(held && reply.number == 0, "no lines where entries stood");
    }
    Ok(4 * (n as u64 + 4))
}

/// Edits and questions on what was restored, beside the original that starts from the same shape.
fn edits(random: &mut Random, trio: &mut Trio, calls: usize) -> Result<(), String> {
    let (n, mix) = (trio.table.n, Mix { versions: 15, keys: Keys::Below(40), illegal: usize::MAX, large: 20 });
    for _ in 0..calls {
        trio.step(&mix.edit(random))?;
        trio.step(&mix.question(random, n))?;
    }
    Ok(())
}

/// Blocks of programs and the largest; then long texts at a small block: a fault far behind is told, not that room is short.
pub fn large(random: &mut Random, met: &mut Met) -> Compared {
    for (n, counts) in [(2016, [1, 1000, 2015, 2016, 2017]), (4096, [4095, 2, 4096, 4097, 5000])] {
        for count in counts {
            let mut trio = Trio::fresh(n);
            fits(random, &mut trio, 7, count, met)?;
            edits(random, &mut trio, 3)?;
        }
    }
    let mut compared = 10;
    for (count, flaw) in [(65_700, Flaw::Malformed), (65_600, Flaw::Zero), (65_540, Flaw::Order), (5000, Flaw::Order)] {
        let entries = entries(random, count);
        let at = count - 1 - random.below(3);
        let text = with_line(&entries, at, &line(random, &entries, at, &[flaw].into()));
        let fault = Fault { number: flaw.number(), line: at as u64 };
        let mut trio = Trio::fresh(32);
        let reply = restore(&mut trio, 0, &text)?;
        if reply != refusal(fault) {
            return Err(format!("{flaw:?} at line {at}: {reply:?}"));
        }
        met.when(at > 65_535, "a fault past line 65,535");
        trio.step(&Call::Size { version: 0 })?;
        compared += 1;
    }
    Ok(compared)
}
