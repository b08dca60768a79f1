//! Drawn lists of calls on both engines, from an empty table and a begun inbox; once in a while the inboxes begin with another batch.

use super::drawn::{self, Keys, Link, WHOLE};
use super::met::Met;
use super::pair::Pair;
use crate::kiosk::plain::MOST;
use crate::kiosk::Call;
use crate::parts::Compared;
use crate::random::Random;

/// So many calls, and at the end the whole listing and what is missing.
fn list(random: &mut Random, keys: Keys, calls: usize, growing: bool, met: &mut Met) -> Compared {
    let mut link = Link::drawn(random, keys);
    let mut pair = Pair::fresh(random.below(16) as u32, link.batch)?;
    for _ in 0..calls {
        if random.once_in(60) {
            link = Link::drawn(random, keys);
            pair.begin(link.batch);
        }
        let call = drawn::call(random, keys, &link, growing);
        let reply = pair.step(&call, met)?;
        if let Call::Receive { line } = &call {
            met.when(reply.fields[0] == 1 && link.is_other(line), "line heard again with another content");
        }
        met.when(pair.size() == MOST, "64 entries");
    }
    pair.step(&WHOLE, met)?;
    pair.step(&Call::Missing, met)?;
    Ok(calls as u64 + 2)
}

pub fn any(random: &mut Random, met: &mut Met) -> Compared {
    let keys = Keys(random.pick(&[Some(3), Some(12), Some(40), None]));
    list(random, keys, 100, false, met)
}

/// More keys than there is room for.
pub fn crowded(random: &mut Random, met: &mut Met) -> Compared {
    let keys = Keys(Some(random.pick(&[65, 80, 100, 1000])));
    list(random, keys, 300, true, met)
}
