//! A kiosk of 64 entries: a new key is 5 wherever it would go, and everything else is answered as before.

use super::drawn::WHOLE;
use super::met::Met;
use super::pair::Pair;
use crate::frame::Frame;
use crate::kiosk::plain::MOST;
use crate::kiosk::Call;
use crate::parts::Compared;
use crate::plain::{NO_ROOM, ZERO};
use crate::random::Random;

const BATCH: u32 = 7;
const COUNT: u32 = 200;

/// A line of the batch; removes have value 0.
fn line(index: u32, kind: u32, key: u32, value: u32) -> Call {
    Call::Receive { line: Frame { batch: BATCH, index, count: COUNT, kind, key, value }.line() }
}

/// A step whose number and first field are known beforehand.
fn expect(pair: &mut Pair, call: &Call, told: (u32, u32), met: &mut Met) -> Result<(), String> {
    let reply = pair.step(call, met)?;
    if (reply.number, reply.fields[0]) == told {
        Ok(())
    } else {
        Err(format!("{call:?} at {} entries: {reply:?}, not {told:?}", pair.size()))
    }
}

/// 64 keys with one between any two, put in any order; index 0 of the batch has been heard.
fn filled(random: &mut Random, met: &mut Met) -> Result<(Pair, Vec<u32>), String> {
    let first = random.pick(&[1, 1000, (1 << 31) - 63, u32::MAX - 127]);
    let keys: Vec<u32> = (0..MOST as u32).map(|at| first + 2 * at).collect();
    let mut pair = Pair::fresh(random.below(16) as u32, BATCH)?;
    let mut order = keys.clone();
    random.shuffle(&mut order);
    for key in order {
        expect(&mut pair, &Call::Insert { key, value: key }, (0, 0), met)?;
    }
    expect(&mut pair, &line(0, 2, first - 1, 0), (0, 0), met)?;
    Ok((pair, keys))
}

/// What a full kiosk says to a new key. Nothing of it is done, and its line is not heard.
fn new_key(pair: &mut Pair, key: u32, met: &mut Met) -> Compared {
    expect(pair, &Call::Insert { key, value: 5 }, (NO_ROOM, 0), met)?;
    expect(pair, &Call::Insert { key, value: 0 }, (ZERO, 0), met)?;
    expect(pair, &line(1, 1, key, 5), (NO_ROOM, 0), met)?;
    expect(pair, &line(1, 1, key, 0), (ZERO, 0), met)?;
    expect(pair, &line(0, 1, key, 5), (0, 1), met)?;
    expect(pair, &Call::Remove { key }, (0, 0), met)?;
    expect(pair, &Call::Lookup { key }, (0, 0), met)?;
    met.when(true, "13 for a new key at 64");
    met.when(true, "a line heard again at 64");
    Ok(7)
}

/// Each new key and each equal one; then keys give way to new ones.
pub fn every_key(random: &mut Random, met: &mut Met) -> Compared {
    let (mut pair, keys) = filled(random, met)?;
    let between: Vec<u32> = keys.iter().map(|key| key - 1).chain([keys[MOST - 1] + 1]).collect();
    let mut compared = 0;
    for &key in &between {
        compared += new_key(&mut pair, key, met)?;
    }
    for (&key, index) in keys.iter().zip(2..) {
        expect(&mut pair, &Call::Insert { key, value: 3 }, (0, 1), met)?;
        expect(&mut pair, &line(index, 1, key, 4), (0, 0), met)?;
        expect(&mut pair, &Call::Lookup { key }, (0, 1), met)?;
        met.when(true, "an equal key at 64");
    }
    for index in 70..70 + MOST as u32 {
        let (old, new) = (random.pick(&keys), random.pick(&between));
        let gone = pair.step(&Call::Remove { key: old }, met)?.fields[0];
        let call = if random.once_in(2) { line(index, 1, new, 6) } else { Call::Insert { key: new, value: 6 } };
        let had = pair.mirror.map.contains_key(&new);
        let room = had || pair.size() < MOST;
        let number = pair.step(&call, met)?.number;
        if (number == 0) != room {
            return Err(format!("{call:?} after {gone} removed: {number}"));
        }
        pair.step(&WHOLE, met)?;
    }
    Ok(compared + 6 * MOST as u64)
}
