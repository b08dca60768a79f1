//! Exact room: an edit that needs exactly as many nodes at once as are free succeeds, and with one fewer free it is NO_ROOM.

use super::uneven::{self, Lean};
use super::{Compared, Effort};
use crate::call::Call;
use crate::history::{Keys, Mix, Trio};
use crate::plain::{makes, refused, NO_ROOM};
use crate::random::Random;
use crate::rules::Supply;
use crate::table::Table;

/// The last version is kept for what takes up room.
const FILLER: usize = 15;

/// The table with all but `left` of its free nodes taken up; which ones stay free is drawn.
pub fn filled(random: &mut Random, table: &Table, left: usize) -> Table {
    let mut table = table.clone();
    let mut free = table.free();
    random.shuffle(&mut free);
    let keys: Vec<u32> = (0..(free.len() - left) as u32).collect();
    table.versions[FILLER] = uneven::tree(random, &mut Supply::new(free), &keys, Lean::Anyhow, 2);
    table
}

pub fn both(random: &mut Random, table: &Table, call: &Call, made: usize) -> Compared {
    let enough = Trio::of(filled(random, table, made)).step(call)?;
    let short = Trio::of(filled(random, table, made - 1)).step(call)?;
    if (enough.number, short.number) == (0, NO_ROOM) {
        Ok(2)
    } else {
        Err(format!("{call:?} makes {made}: answers {} and {}", enough.number, short.number))
    }
}

pub fn exact(effort: Effort) -> Compared {
    effort.each(2000, |random| {
        let n = 32 * (4 + random.below(4));
        let bound = 8 + random.below(40);
        let mix = Mix { versions: 3, keys: Keys::Below(bound), illegal: usize::MAX, large: random.pick(&[2, 50]) };
        let mut trio = Trio::of(if random.once_in(2) { uneven::table(random, n / 4, 3, bound) } else { Table::fresh(n / 4) });
        trio = Trio::of(Table { n, ..trio.table });
        let mut compared = 0;
        for _ in 0..20 {
            let call = mix.edit(random);
            let made = if refused(&trio.table, &call).is_some() { 0 } else { makes(&trio.table, &call) };
            if (1..=trio.table.free().len()).contains(&made) {
                compared += both(random, &trio.table, &call, made)?;
            }
            trio.step(&call)?;
            compared += 1;
        }
        Ok(compared)
    })
}
