//! Request lines that come to a standby: its calls for data know nothing of their kinds.

use super::asks::inbox;
use super::met::Met;
use super::plant::made;
use crate::call::{Call, Reply};
use crate::exports;
use crate::frame::{Frame, KIND};
use crate::history::same_words;
use crate::parts::{uneven, Compared};
use crate::random::Random;
use crate::request::{complete, placed, COMPLETE, LAST, ONE, RUN};

const ZEROS: Frame = Frame { batch: 0, index: 0, count: 0, kind: 0, key: 0, value: 0 };

/// 11 from parse and from a standby that waits for the batch, and no word changes there.
fn strange(random: &mut Random, line: &Frame) -> Result<(), String> {
    let told = exports::parse(&line.line());
    if told != (KIND, 0, ZEROS) {
        return Err(format!("parse of {line:?}: {told:?}"));
    }
    let block = uneven::table(random, 64, 3, 40).words();
    let count = random.pick(&[0, line.count.min(4096)]);
    let inbox = inbox(line.batch, count, |_| random.once_in(2));
    let (mut block_after, mut inbox_after) = (block.clone(), inbox.clone());
    let call = Call::Receive { version: random.below(16) as u32, line: line.line() };
    let reply = exports::run(&mut block_after, &mut inbox_after, &call);
    if reply != (Reply { number: KIND, ..Reply::default() }) {
        return Err(format!("receive of {line:?}: {reply:?}"));
    }
    same_words("block", &block, &block_after)?;
    same_words("inbox", &inbox, &inbox_after)
}

pub fn refused(random: &mut Random, met: &mut Met) -> Compared {
    let batch = random.word();
    let lines = match random.below(4) {
        0 => placed(vec![complete(batch)]),
        _ => {
            let from = random.below(4096) as u32;
            made(random, batch, from, LAST, 9).lines
        }
    };
    for line in &lines {
        strange(random, line)?;
        met.when(line.kind == ONE, "11: kind 10");
        met.when(line.kind == RUN, "11: kind 11");
        met.when(line.kind == COMPLETE, "11: kind 12");
    }
    Ok(2 * lines.len() as u64)
}
