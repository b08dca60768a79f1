//! One restore on all sides, and what must be so beside its answer: the text is only read, and what was restored lists as the text.

use crate::call::{Call, Reply};
use crate::exports;
use crate::history::{same_words, Trio};
use crate::restore::{self, Fault, Text, BYTES};

/// Restores on a trio; gives the reply.
pub fn restore(trio: &mut Trio, version: u32, text: &[u8]) -> Result<Reply, String> {
    let mut block = trio.block.clone();
    let reply = trio.step(&Call::Restore { version, text: Text(text.to_vec()) })?;
    only_read(&mut block, version, text, &reply)?;
    same_words("block of the call whose text goes on", &trio.block, &block)?;
    if reply.number == 0 {
        listed(trio, version, text)?;
    }
    Ok(reply)
}

/// The same call where a listing goes on behind the lent text: that is not looked at, and no byte of either changes.
pub fn only_read(block: &mut [u32], version: u32, text: &[u8], reply: &Reply) -> Result<(), String> {
    let whole = text.len() / BYTES * BYTES;
    let line = restore::lines(&[(u32::MAX, 1)]);
    let mut longer = [&text[..whole], &text[whole..], &line[text.len() - whole..], &line].concat();
    let kept = longer.clone();
    let (number, line) = exports::restore(block, version, &mut longer[..text.len()]);
    if longer != kept {
        return Err(format!("a restore from {} bytes changed the text", text.len()));
    }
    if (number, [line as u32, (line >> 32) as u32]) != (reply.number, reply.fields) {
        return Err(format!("{number} at line {line} where a listing goes on behind the text, {reply:?} where it does not"));
    }
    Ok(())
}

/// The listing against an empty version gives the lines back.
fn listed(trio: &mut Trio, version: u32, text: &[u8]) -> Result<(), String> {
    let empty = |other: &u32| *other != version && trio.table.versions[*other as usize].is_none();
    let right = (0..16).find(empty).ok_or("no version is empty")?;
    let lines = text.len() / BYTES;
    let reply = trio.step(&Call::List { left: version, right, start: 0, room: 4 * lines })?;
    let rows: Vec<restore::Entry> = reply.words[..4 * lines].chunks_exact(4).map(|row| (row[0], row[1])).collect();
    if reply.number == 0 && reply.fields[1] as usize == lines && restore::lines(&rows) == text {
        Ok(())
    } else {
        Err(format!("the listing of what was restored is not the text: {reply:?}"))
    }
}

/// What a refusal of faulty lines looks like.
pub fn refusal(fault: Fault) -> Reply {
    Reply { number: fault.number, fields: [fault.line as u32, (fault.line >> 32) as u32], ..Reply::default() }
}
