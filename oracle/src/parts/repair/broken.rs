//! Broken requests: each fault that document 02 lists, at every line, alone, beside others and beside another batch. A refusal
//! writes nothing.

use super::met::Met;
use super::plant::{apart, BREAKS, GARBLES};
use super::primary::{judge, Primary};
use crate::call::Reply;
use crate::frame::{Frame, LINE};
use crate::parts::Compared;
use crate::plain::BATCH;
use crate::random::Random;
use crate::request::{complete, placed, text, REQUEST};

const N: usize = 20;

/// The request is refused with the number that is known, and the plain reading says the same.
fn refused(primary: &Primary, batch: u32, request: &[u8], number: u32) -> Result<(), String> {
    let call = primary.call(batch, request, 0, N * LINE);
    let expected = Reply { number, ..call.blank() };
    judge(&primary.trio.block, &call, expected)?;
    primary.compare(&call).map(drop)
}

/// Another batch in one line.
fn estranged(random: &mut Random, lines: &mut [Frame]) {
    let at = random.below(lines.len());
    lines[at].batch ^= 1 << random.below(32);
}

/// Every fault at one line; once in a while with another batch beside it.
fn each_fault(random: &mut Random, primary: &Primary, good: &[Frame], at: usize, met: &mut Met) -> Compared {
    let batch = good[0].batch;
    let mut compared = 0;
    for estrange in [false, true] {
        let mut start = good.to_vec();
        if estrange {
            estranged(random, &mut start);
        }
        for (name, plant) in BREAKS {
            let mut lines = start.clone();
            if plant(random, &mut lines, at) {
                refused(primary, batch, &text(&lines), REQUEST).map_err(|what| format!("{name} at {at}: {what}"))?;
                compared += 1;
            }
        }
        for (name, garble) in GARBLES {
            let mut request = text(&start);
            if garble(random, &mut request, at) {
                refused(primary, batch, &request, REQUEST).map_err(|what| format!("{name} at {at}: {what}"))?;
                compared += 1;
            }
        }
        met.when(estrange, "15: a fault and another batch");
    }
    met.when(good.len() == 1, "15: at the only line");
    met.when(good.len() > 1 && at == 0, "15: at the first line");
    met.when(0 < at && at + 1 < good.len(), "15: at a line between");
    met.when(0 < at && at + 1 == good.len(), "15: at the last line");
    Ok(compared)
}

/// Several faults at any lines. A line may turn out whole, so the plain reading says what comes of them.
fn several(random: &mut Random, primary: &Primary, good: &[Frame], met: &mut Met) -> Compared {
    let mut lines = good.to_vec();
    for _ in 0..2 + random.below(3) {
        let (at, mut broken) = (random.below(lines.len()), good.to_vec());
        random.pick(&BREAKS).1(random, &mut broken, at);
        lines[at] = broken[at];
    }
    if random.once_in(2) {
        estranged(random, &mut lines);
    }
    let mut request = text(&lines);
    if random.once_in(2) {
        random.pick(&GARBLES).1(random, &mut request, lines.len() - 1);
    }
    let reply = primary.compare(&primary.call(good[0].batch, &request, 0, N * LINE))?;
    met.when(reply.number == REQUEST, "15: several faults");
    Ok(1)
}

pub fn each_line(random: &mut Random, met: &mut Met) -> Compared {
    let delta = random.below(N);
    let primary = Primary::of_length(random, delta)?;
    let lines = random.pick(&[1, 2, 3, 5, 20]);
    let (batch, mut compared) = (random.word(), 0);
    let good = apart(random, batch, lines);
    let reply = primary.compare(&primary.call(batch, &text(&good), 0, N * LINE))?;
    if reply.number != 0 {
        return Err(format!("a good request is refused with {}", reply.number));
    }
    for at in 0..lines {
        compared += each_fault(random, &primary, &good, at, met)?;
    }
    for _ in 0..20 {
        compared += several(random, &primary, &good, met)?;
    }
    Ok(compared + 1)
}

/// Well-formed requests in which one line, or all, are of another batch.
pub fn other_batch(random: &mut Random, met: &mut Met) -> Compared {
    let delta = random.below(N);
    let primary = Primary::of_length(random, delta)?;
    let (batch, count) = (random.word(), random.pick(&[1, 2, 3, 8]));
    let good = apart(random, batch, count);
    for at in 0..count {
        let mut lines = good.clone();
        lines[at].batch ^= 1 << random.below(32);
        refused(&primary, batch, &text(&lines), BATCH)?;
        met.when(at == 0, "8: at the first line");
        met.when(0 < at && at + 1 < count, "8: at a line between");
        met.when(0 < at && at + 1 == count, "8: at the last line");
    }
    let other = batch ^ 1 << random.below(32);
    refused(&primary, other, &text(&good), BATCH)?;
    refused(&primary, other, &text(&placed(vec![complete(batch)])), BATCH)?;
    met.when(true, "8: complete, of another batch");
    Ok(count as u64 + 2)
}

/// Each byte of a request changed to every other.
pub fn each_byte(random: &mut Random, _: &mut Met) -> Compared {
    let primary = Primary::of_length(random, 12)?;
    let (batch, lines) = (random.word(), random.pick(&[1, 2, 3]));
    let good = if random.once_in(3) { placed(vec![complete(batch)]) } else { apart(random, batch, lines) };
    let mut request = text(&good);
    for at in 0..request.len() {
        let kept = request[at];
        for byte in 0..=255 {
            request[at] = byte;
            primary.compare(&primary.call(batch, &request, 0, N * LINE))?;
        }
        request[at] = kept;
    }
    Ok(256 * request.len() as u64)
}

/// The first and the last bytes of a request, with none to all of them, and more after it.
pub fn each_length(random: &mut Random, _: &mut Met) -> Compared {
    let primary = Primary::of_length(random, 12)?;
    let (batch, lines) = (random.word(), random.pick(&[1, 2, 3]));
    let request = text(&apart(random, batch, lines));
    let longer = [&request[..], &request[..LINE]].concat();
    for bytes in 0..=longer.len() {
        let number = if bytes == request.len() { 0 } else { REQUEST };
        for part in [&longer[..bytes], &longer[longer.len() - bytes..]] {
            let reply = primary.compare(&primary.call(batch, part, 0, N * LINE))?;
            if part == &longer[..bytes] && reply.number != number {
                return Err(format!("{bytes} bytes of {} are answered with {}", request.len(), reply.number));
            }
        }
    }
    Ok(2 * longer.len() as u64 + 2)
}
