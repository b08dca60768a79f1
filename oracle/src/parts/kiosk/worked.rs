//! A short list of calls worked out by hand from the documents: each answer, and the kiosk's words after it.

use super::alone::lend;
use super::met::Met;
use crate::call::Reply;
use crate::exports;
use crate::frame::INBOX;
use crate::kiosk::plain::WORDS;
use crate::kiosk::{fresh, Call};
use crate::parts::Compared;
use crate::random::Random;

/// A call, its number and two fields, and the words that lead the slice afterwards; all others are zero.
type Step = (Call, [u32; 3], &'static [u32]);

fn steps() -> Vec<Step> {
    // The line of document 01: batch 7, the one frame of its batch, puts 31 under key 3.
    let line = b"000000070000000101000000030000001f\n".to_vec();
    vec![
        (Call::Missing, [0, u32::MAX, 0], &[0]),
        (Call::Insert { key: 5, value: 50 }, [0, 0, 0], &[1, 5, 50]),
        (Call::Insert { key: 3, value: 30 }, [0, 0, 0], &[2, 3, 30, 5, 50]),
        (Call::Insert { key: 4, value: 0 }, [13, 0, 0], &[2, 3, 30, 5, 50]),
        (Call::Insert { key: 4, value: 40 }, [0, 0, 0], &[3, 3, 30, 4, 40, 5, 50]),
        (Call::Receive { line: line.clone() }, [0, 0, 0], &[3, 3, 31, 4, 40, 5, 50]),
        (Call::Insert { key: 3, value: 9 }, [0, 1, 31], &[3, 3, 9, 4, 40, 5, 50]),
        (Call::Receive { line }, [0, 1, 0], &[3, 3, 9, 4, 40, 5, 50]),
        (Call::Missing, [0, 0, 0], &[3, 3, 9, 4, 40, 5, 50]),
        (Call::Remove { key: 4 }, [0, 1, 40], &[2, 3, 9, 5, 50]),
        (Call::Remove { key: 4 }, [0, 0, 0], &[2, 3, 9, 5, 50]),
        (Call::Lookup { key: 5 }, [0, 1, 50], &[2, 3, 9, 5, 50]),
        (Call::Lookup { key: 4 }, [0, 0, 0], &[2, 3, 9, 5, 50]),
    ]
}

/// The listing of what the steps leave, from its second entry on.
fn listed(kiosk: &mut Vec<u32>) -> Result<(), String> {
    let call = Call::List { start: 1, room: 9 };
    let mut told = Reply { fields: [4, 2], ..call.blank() };
    told.words[..4].copy_from_slice(&[5, 50, 0, 0]);
    match lend(kiosk, &mut vec![], &call)? {
        reply if reply == told => Ok(()),
        reply => Err(format!("{call:?}: {reply:?}, worked out as {told:?}")),
    }
}

pub fn all(_: &mut Random, _: &mut Met) -> Compared {
    let (mut kiosk, mut inbox, steps) = (vec![1; WORDS], vec![1; INBOX], steps());
    if (fresh(&mut kiosk), exports::begin(&mut inbox, 7)) != (0, 0) {
        return Err("fresh or begin is refused".into());
    }
    for (call, told, words) in &steps {
        let reply = lend(&mut kiosk, &mut inbox, call)?;
        let rest = kiosk[words.len()..].iter().all(|&word| word == 0);
        if [reply.number, reply.fields[0], reply.fields[1]] != *told || !kiosk.starts_with(words) || !rest {
            return Err(format!("{call:?}: {reply:?} and {kiosk:?}, worked out as {told:?} and {words:?}"));
        }
    }
    listed(&mut kiosk)?;
    Ok(steps.len() as u64 + 1)
}
