//! Requests made by hand and requests that ask wrote, at primaries with drawn versions.

use super::asks::{inbox, judge};
use super::met::Met;
use super::plant::{made, Made};
use super::primary::Primary;
use crate::frame::{Frame, LINE};
use crate::parts::Compared;
use crate::random::Random;
use crate::request::{complete, placed, runs, span, text, LAST, ONE, RUN};
use std::collections::BTreeSet;

/// Where requests begin and end: about the delta's last frame, about the highest index, anywhere.
fn bounds(random: &mut Random, frames: u32) -> (u32, u32) {
    match random.below(5) {
        0 => (0, frames - 1),
        1 => (frames.saturating_sub(3), (frames + 70).min(LAST)),
        2 => (LAST - random.below(70) as u32, LAST),
        3 => (0, LAST),
        _ => (random.below(4096) as u32, LAST),
    }
}

fn drawn_request(random: &mut Random, batch: u32, frames: u32) -> Made {
    let (from, last) = bounds(random, frames);
    match random.below(8) {
        0 => Made { lines: placed(vec![complete(batch)]), asked: BTreeSet::new() },
        1 => Made { lines: placed(vec![span(batch, (0, LAST))]), asked: (0..=LAST).collect() },
        2 => {
            let first = from.min(last);
            let last = random.pick(&[first, last, frames - 1, frames.min(LAST), LAST]).max(first);
            Made { lines: placed(vec![span(batch, (first, last))]), asked: (first..=last).collect() }
        }
        _ => {
            let most = random.pick(&[1, 2, 5, 30]);
            made(random, batch, from, last, most)
        }
    }
}

fn sort(made: &Made, frames: u32, nothing: bool, met: &mut Met) {
    let Made { lines, asked } = made;
    let beside = |kind: u32| {
        let neighbours = |pair: &[Frame]| pair[0].kind == kind && pair[1].kind == kind && super::plant::end(&pair[0]) + 1 == pair[1].key;
        lines.windows(2).any(neighbours)
    };
    let over = |line: &Frame| line.kind == RUN && line.key < frames && line.value >= frames;
    let past = asked.first().is_some_and(|&first| first >= frames);
    met.when(asked.is_empty(), "resend: complete");
    met.when(beside(ONE), "resend: neighbouring single lines");
    met.when(beside(RUN), "resend: neighbouring runs");
    met.when(lines.iter().any(over), "resend: a run over the delta's end");
    met.when(past, "resend: past the delta alone");
    met.when(asked.contains(&(frames - 1)), "resend: the delta's last frame");
    met.when(asked.contains(&LAST), "resend: index 4,095");
    met.when(asked.contains(&LAST) && frames == 4096, "resend: a frame 4,095");
    met.when(lines.len() == 1 && asked.len() == 4096, "resend: all, in one run");
    met.when(nothing && asked.contains(&0), "resend: \"nothing\"");
    met.when(nothing && past, "resend: an empty delta, past its frame");
}

/// A request whole, and from start indexes into outputs of any length.
fn pieces(random: &mut Random, primary: &mut Primary, batch: u32, made: &Made, met: &mut Met) -> Compared {
    let request = text(&made.lines);
    let whole = primary.send(batch, &request, &made.asked, 0, 4096 * LINE)?;
    let total = whole.fields[1];
    for _ in 0..3 {
        let start = random.pick(&[0, 0, total / 2, total.saturating_sub(1), total, total + 1, 1 << 31, u32::MAX]);
        let rest = LINE * (total as usize).saturating_sub(start as usize);
        let room = random.pick(&[0, LINE - 1, LINE, LINE + 1, rest / 2, rest.saturating_sub(1), rest, rest + 1, rest + 3 * LINE]);
        primary.send(batch, &request, &made.asked, start, room)?;
        met.when(0 < start && start < total && room >= LINE, "resend: start within");
        met.when(0 < total && start == total, "resend: start at the total");
        met.when(start > total, "resend: start past the total");
        met.when(rest > 0 && room < LINE, "resend: output of less than a line");
        met.when(LINE < room && room < rest && room % LINE != 0, "resend: output that ends within a line");
        met.when(LINE <= room && room < rest, "resend: output too short");
    }
    Ok(4)
}

/// What a standby that has heard some of the frames asks.
fn standbys(random: &mut Random, batch: u32, frames: u32, met: &mut Met) -> Result<Made, String> {
    let (count, rate) = (if random.once_in(6) { 0 } else { frames }, random.pick(&[2, 5, 50]));
    let inbox = inbox(batch, count, |_| !random.once_in(rate));
    let request = judge(&inbox)?;
    let missing = (0..frames).filter(|&index| count == 0 || !crate::frame::heard(&inbox, index));
    let asked: BTreeSet<u32> = if count == 0 { (0..=LAST).collect() } else { missing.collect() };
    met.when(count == 0, "resend: what ask wrote of an unknown count");
    met.when(count > 0 && asked.is_empty(), "resend: what ask wrote, complete");
    met.when(count > 0 && runs(asked.iter().copied()).len() > 1, "resend: what ask wrote");
    let lines = request.chunks(LINE).map(Frame::fields).collect::<Result<_, _>>();
    Ok(Made { lines: lines.map_err(|fault| format!("ask wrote a line with {fault:?}"))?, asked })
}

pub fn drawn(random: &mut Random, met: &mut Met) -> Compared {
    let delta = random.pick(&[0, 1, 2, 3, 10, 33, 50]);
    let mut primary = Primary::of_length(random, delta)?;
    let (batch, frames) = (random.word(), delta.max(1) as u32);
    let mut compared = 0;
    for _ in 0..3 {
        let made = drawn_request(random, batch, frames);
        sort(&made, frames, delta == 0, met);
        compared += pieces(random, &mut primary, batch, &made, met)?;
        let made = standbys(random, batch, frames, met)?;
        compared += pieces(random, &mut primary, batch, &made, met)?;
    }
    Ok(compared)
}

/// The longest delta there is: 2,048 puts and 2,048 removes.
pub fn large(random: &mut Random, met: &mut Met) -> Compared {
    let side = |odd: u32| (0..2048).map(|i| (2 * i + odd, 1 + i)).collect();
    let mut primary = Primary::holding(random, 4096, [side(1), side(0)]);
    let batch = random.word();
    let mut compared = 0;
    for _ in 0..6 {
        let made = drawn_request(random, batch, 4096);
        sort(&made, 4096, false, met);
        compared += pieces(random, &mut primary, batch, &made, met)?;
    }
    let singles = (0..4096).map(|index| span(batch, (index, index))).collect();
    let all = Made { lines: placed(singles), asked: (0..=LAST).collect() };
    sort(&all, 4096, false, met);
    compared += pieces(random, &mut primary, batch, &all, met)?;
    let made = standbys(random, batch, 4096, met)?;
    Ok(compared + pieces(random, &mut primary, batch, &made, met)?)
}
