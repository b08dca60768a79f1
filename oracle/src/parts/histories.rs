//! Random histories over sixteen versions, judged after every call.

use super::{Compared, Effort};
use crate::call::Call;
use crate::history::{Keys, Mix, Trio};
use crate::random::Random;

/// Few nodes for many versions: room is often short.
pub fn small(effort: Effort) -> Compared {
    effort.each(4000, |random| {
        let n = 32 * (1 + random.below(3));
        let keys = if random.once_in(4) { Keys::Any } else { Keys::Below(2 + random.below(40)) };
        let mix = Mix { versions: 1 + random.below(16), keys, illegal: 200, large: random.pick(&[2, 20, 200]) };
        history(random, &mut Trio::fresh(n), mix, 150)
    })
}

/// Trees of hundreds of entries: rotations, joins and splits at depth.
pub fn large(effort: Effort) -> Compared {
    effort.each(30, |random| {
        let n = random.pick(&[1024, 2016, 4096]);
        let keys = if random.once_in(2) { Keys::Any } else { Keys::Below(n / 2) };
        let mix = Mix { versions: 2 + random.below(4), keys, illegal: 500, large: random.pick(&[2, 1000, 10_000]) };
        let mut trio = Trio::fresh(n);
        let grown = n / 4;
        for _ in 0..grown {
            trio.step(&mix.insert(random, 0))?;
        }
        Ok(grown as u64 + history(random, &mut trio, mix, 300)?)
    })
}

fn history(random: &mut Random, trio: &mut Trio, mix: Mix, calls: usize) -> Compared {
    let n = trio.table.n;
    let mut compared = 0;
    for _ in 0..calls {
        let call = if random.once_in(3) { mix.question(random, n) } else { mix.edit(random) };
        trio.step(&call)?;
        compared += 1;
    }
    Ok(compared + closing(random, trio, mix)?)
}

/// At the end every version is listed whole and compared, against another and the other way round, and asked for each key of a small range.
fn closing(random: &mut Random, trio: &mut Trio, mix: Mix) -> Compared {
    let room = 4 * trio.table.n;
    let mut calls = vec![];
    for version in 0..mix.versions as u32 {
        let other = random.below(16) as u32;
        calls.push(Call::Size { version });
        calls.push(Call::Held { version });
        calls.push(Call::List { left: version, right: other, start: 0, room });
        calls.push(Call::List { left: other, right: version, start: 0, room });
        calls.push(Call::Same { from: version, to: other });
        calls.push(Call::Same { from: other, to: version });
        if let Keys::Below(bound @ ..=40) = mix.keys {
            calls.extend((0..=bound as u32).map(|key| Call::Lookup { version, key }));
            calls.extend((0..=bound as u32).map(|first| Call::HeldBetween { version, first, last: random.below(bound + 1) as u32 }));
        }
    }
    calls.iter().try_for_each(|call| trio.step(call).map(drop))?;
    Ok(calls.len() as u64)
}
