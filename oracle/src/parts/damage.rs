//! Changed and cut blocks and inboxes under every call. Three audits must agree: the export's, document 01's text, and the
//! linear one in Rust. A refusal leaves every word and byte; what is still sound must be answered.

use super::limits::drawn_inbox;
use super::uneven;
use super::{Compared, Effort};
use crate::call::{Call, Reply};
use crate::exports;
use crate::frame::Frame;
use crate::history::{same_words, Keys, Mix, Trio};
use crate::passes;
use crate::plain;
use crate::random::Random;
use crate::sound;
use crate::table::Table;

/// One word becomes another that may well be believed.
fn change(random: &mut Random, words: &mut [u32]) {
    let at = if random.once_in(4) { random.below(words.len().min(40)) } else { random.below(words.len()) };
    words[at] = match random.below(6) {
        0 => words[at].wrapping_add(1),
        1 => words[at].wrapping_sub(1),
        2 => words[at] ^ 1 << random.below(32),
        3 => words[random.below(words.len())],
        4 => random.below(40) as u32,
        _ => random.pick(&[0, u32::MAX, 1 << 31]),
    };
}

pub fn damage(random: &mut Random, words: &mut Vec<u32>) {
    match random.below(12) {
        0 => words.truncate(random.below(words.len())),
        1 => words.extend((0..1 + random.below(8)).map(|_| 0)),
        2 => {}
        _ => (0..1 + random.below(3)).for_each(|_| change(random, words)),
    }
}

fn line(random: &mut Random, inbox: &[u32]) -> Vec<u8> {
    let count = inbox.get(1).copied().filter(|count| (1..=4096).contains(count) && !random.once_in(5)).unwrap_or(9);
    let kind = 1 + random.below(2) as u32;
    let frame = Frame {
        batch: if random.once_in(6) { 99 } else { inbox.first().copied().unwrap_or(0) },
        index: random.below(count as usize) as u32,
        count,
        kind,
        key: random.below(40) as u32,
        value: if kind == 1 { random.below(3) as u32 } else { 0 },
    };
    let mut line = frame.line();
    if random.once_in(6) {
        line[random.below(35)] = random.word() as u8;
    }
    line
}

/// The numbers of document 01 that go before all others: the block's shape, the inbox's, the block's soundness, the inbox's.
fn refused(call: &Call, block: &[u32], inbox: &[u32]) -> u32 {
    let of_inbox = if matches!(call, Call::Receive { .. }) { sound::check_inbox(inbox) } else { 0 };
    match (sound::check(block), of_inbox) {
        (1, _) | (_, 1) => 1,
        (2, _) | (_, 2) => 2,
        _ => 0,
    }
}

pub fn compare(block: &[u32], inbox: &[u32], call: &Call) -> Result<(), String> {
    let (mut block_after, mut inbox_after) = (block.to_vec(), inbox.to_vec());
    let reply = exports::run(&mut block_after, &mut inbox_after, call);
    let (mut block_told, mut inbox_told) = (block.to_vec(), inbox.to_vec());
    let expected = match refused(call, block, inbox) {
        0 => {
            let mut table = Table::read(block);
            let expected = plain::answer(&mut table, &mut inbox_told, call);
            block_told = table.words();
            expected
        }
        number => Reply { number, ..call.blank() },
    };
    if reply != expected {
        return Err(format!("{call:?}: {reply:?}, not {expected:?}"));
    }
    same_words("block", &block_told, &block_after)?;
    same_words("inbox", &inbox_told, &inbox_after)
}

/// A sound block to damage: uneven trees, or what some edits have left.
pub fn start(random: &mut Random, n: usize, mix: Mix) -> Result<Vec<u32>, String> {
    if random.once_in(2) {
        return Ok(uneven::table(random, n, mix.versions, 40).words());
    }
    let mut trio = Trio::fresh(n);
    for _ in 0..random.below(60) {
        trio.step(&mix.edit(random))?;
    }
    Ok(trio.block)
}

pub fn refusals(effort: Effort) -> Compared {
    effort.each(6000, |random| {
        let n = 32 * (1 + random.below(2));
        let mix = Mix { versions: 1 + random.below(16), keys: Keys::Below(40), illegal: 12, large: 4 };
        let whole = start(random, n, mix)?;
        for _ in 0..30 {
            let mut block = whole.clone();
            damage(random, &mut block);
            let inbox = drawn_inbox(random);
            if sound::check(&block) != passes::check(&block) {
                return Err(format!("the two audits in Rust differ on {block:?}"));
            }
            let receive = Call::Receive { version: random.below(17) as u32, line: line(random, &inbox) };
            for call in [mix.edit(random), mix.edit(random), mix.question(random, n), receive] {
                compare(&block, &inbox, &call)?;
            }
        }
        Ok(120)
    })
}
