//! What document 01 says of each call: the reply, the trees and the inbox afterwards.

use crate::batch::{self, records, EDIT};
use crate::call::{Call, Reply};
use crate::frame::{self, Fault, Frame, LINE};
use crate::request;
use crate::restore;
use crate::rules::{self, Supply, Tree};
use crate::table::Table;
use crate::walk::{self, TooDeep};

pub const VERSION: u32 = 3;
pub const RULE: u32 = 4;
pub const NO_ROOM: u32 = 5;
pub const TOO_DEEP: u32 = 6;
pub const BATCH: u32 = 8;
pub const COUNT: u32 = 9;
pub const ZERO: u32 = 13;
pub const SUM: u32 = 14;

/// A refusal's number, the place of a bad digit, and the number of a listing's faulty line.
pub struct Refusal {
    number: u32,
    place: u32,
    line: u64,
}

impl From<u32> for Refusal {
    fn from(number: u32) -> Refusal {
        Refusal { number, place: 0, line: 0 }
    }
}

impl From<TooDeep> for Refusal {
    fn from(_: TooDeep) -> Refusal {
        TOO_DEEP.into()
    }
}

impl From<Fault> for Refusal {
    fn from(Fault { number, place }: Fault) -> Refusal {
        Refusal { number, place, line: 0 }
    }
}

impl From<restore::Fault> for Refusal {
    fn from(restore::Fault { number, line }: restore::Fault) -> Refusal {
        Refusal { number, place: 0, line }
    }
}

/// Answers a call on sound words. A refusal leaves trees and inbox alone.
pub fn answer(table: &mut Table, inbox: &mut [u32], call: &Call) -> Reply {
    let mut reply = call.blank();
    match run(table, inbox, call, &mut reply) {
        Ok(()) => reply,
        Err(Refusal { number, place, line }) => Reply { number, place, fields: halves(line), ..call.blank() },
    }
}

/// What is looked at before anything else: versions, rules, records, a listing's lines, zeros and sums.
pub fn refused(table: &Table, call: &Call) -> Option<Refusal> {
    if call.versions().iter().any(|&version| version > 15) {
        Some(VERSION.into())
    } else if !call.rule_known() {
        Some(RULE.into())
    } else if !call.edits_known() {
        Some(EDIT.into())
    } else if let Some(fault) = call.faulty_line() {
        Some(fault.into())
    } else if call.puts_zero() {
        Some(ZERO.into())
    } else {
        exceeds(table, call).then_some(SUM.into())
    }
}

fn run(table: &mut Table, inbox: &mut [u32], call: &Call, reply: &mut Reply) -> Result<(), Refusal> {
    if let Some(refusal) = refused(table, call) {
        return Err(refusal);
    }
    let tree = |version: u32| table.versions[version as usize].clone();
    match *call {
        Call::Lookup { version, key } => reply.fields = found(rules::lookup(&tree(version), key)),
        Call::Size { version } => reply.fields = [rules::size(&tree(version)) as u32, 0],
        Call::Held { version } => reply.fields = halves(minutes(&tree(version), 0, u32::MAX)),
        Call::HeldBetween { version, first, last } => reply.fields = halves(minutes(&tree(version), first, last)),
        Call::List { left, right, start, room } => {
            let rows = walk::rows(&tree(left), &tree(right))?;
            let written = written(rows.len(), start, room / 4);
            for (place, row) in reply.words.chunks_exact_mut(4).zip(&rows[written.clone()]) {
                place.copy_from_slice(row);
            }
            reply.fields = [4 * written.len() as u32, rows.len() as u32];
        }
        Call::Frames { from, to, batch, start, room } => {
            let frames = frame::frames(batch, &walk::delta(&tree(from), &tree(to))?);
            write_lines(reply, &frames, start, room);
        }
        Call::Same { from, to } => reply.fields = [walk::same(&tree(from), &tree(to))? as u32, 0],
        Call::Receive { version, ref line } => reply.fields = receive(table, inbox, version, line)?,
        Call::Ask { start, room } => write_lines(reply, &request::ask(inbox), start, room),
        Call::Resend { from, to, batch, ref request, start, room } => {
            let asked = request::asked(request, batch)?;
            let mut frames = frame::frames(batch, &walk::delta(&tree(from), &tree(to))?);
            frames.retain(|frame| asked.contains(&frame.index));
            write_lines(reply, &frames, start, room);
        }
        _ => reply.fields = edit(table, call)?,
    }
    Ok(())
}

/// A union by sums in which one does not fit.
fn exceeds(table: &Table, call: &Call) -> bool {
    let tree = |version: u32| &table.versions[version as usize];
    matches!(*call, Call::Union { left, right, rule: 4, .. } if !rules::sums_fit(tree(left), tree(right)))
}

/// Every entry is looked at.
fn minutes(tree: &Tree, first: u32, last: u32) -> u64 {
    let Some(node) = tree else { return 0 };
    let own = if first <= node.key && node.key <= last { node.value as u64 } else { 0 };
    minutes(&node.left, first, last) + own + minutes(&node.right, first, last)
}

fn halves(number: u64) -> [u32; 2] {
    [number as u32, (number >> 32) as u32]
}

fn found(value: Option<u32>) -> [u32; 2] {
    [value.is_some() as u32, value.unwrap_or(0)]
}

/// Which of `total` items go out.
fn written(total: usize, start: u32, room: usize) -> std::ops::Range<usize> {
    let start = total.min(start as usize);
    start..start + room.min(total - start)
}

/// Lines from a start index on while 35 bytes remain.
fn write_lines(reply: &mut Reply, lines: &[Frame], start: u32, room: usize) {
    let written = written(lines.len(), start, room / LINE);
    for (place, line) in reply.bytes.chunks_exact_mut(LINE).zip(&lines[written.clone()]) {
        place.copy_from_slice(&line.line());
    }
    reply.fields = [(LINE * written.len()) as u32, lines.len() as u32];
}

/// Runs the rule of an edit and makes its tree the destination's.
fn edit(table: &mut Table, call: &Call) -> Result<[u32; 2], u32> {
    let mut supply = Supply::new(table.free());
    let (dest, tree, fields) = ruled(table, &mut supply, call);
    if supply.short() {
        return Err(NO_ROOM);
    }
    table.versions[dest as usize] = tree;
    Ok(fields)
}

fn ruled(table: &Table, supply: &mut Supply, call: &Call) -> (u32, Tree, [u32; 2]) {
    let tree = |version: u32| &table.versions[version as usize];
    match *call {
        Call::Insert { dest, source, key, value } => {
            (dest, rules::insert(supply, tree(source), key, value), found(rules::lookup(tree(source), key)))
        }
        Call::Remove { dest, source, key } => {
            (dest, rules::remove(supply, tree(source), key), found(rules::lookup(tree(source), key)))
        }
        Call::Copy { dest, source } => (dest, tree(source).clone(), [0; 2]),
        Call::Batch { dest, source, ref edits } => {
            let edits = records(edits).expect("the records were checked");
            (dest, batch::run(supply, tree(source), &edits), [0; 2])
        }
        Call::Clear { version } => (version, None, [0; 2]),
        Call::Restore { version, ref text } => {
            let entries = restore::entries(&text.0).expect("the lines were checked");
            (version, restore::build(supply, &entries), [0; 2])
        }
        Call::Union { dest, left, right, rule } => (dest, rules::union(supply, tree(left), tree(right), rule), [0; 2]),
        Call::Difference { dest, left, right, rule, cancel } => {
            (dest, rules::difference(supply, tree(left), tree(right), rule, cancel == 1), [0; 2])
        }
        _ => unreachable!("not an edit"),
    }
}

/// The nodes that an edit has made and not taken apart, at the most: the room that it needs.
pub fn makes(table: &Table, call: &Call) -> usize {
    let mut supply = Supply::new(table.free());
    ruled(table, &mut supply, call);
    supply.most()
}

/// The edit that a frame asks for in a version.
pub fn frame_edit(frame: &Frame, version: u32) -> Option<Call> {
    match frame.kind {
        1 => Some(Call::Insert { dest: version, source: version, key: frame.key, value: frame.value }),
        2 => Some(Call::Remove { dest: version, source: version, key: frame.key }),
        _ => None,
    }
}

fn receive(table: &mut Table, inbox: &mut [u32], version: u32, line: &[u8]) -> Result<[u32; 2], Refusal> {
    let frame = Frame::read(line)?;
    if frame.batch != inbox[0] {
        return Err(BATCH.into());
    }
    if inbox[1] != 0 && inbox[1] != frame.count {
        return Err(COUNT.into());
    }
    if frame.kind == 1 && frame.value == 0 {
        return Err(ZERO.into());
    }
    let repeat = frame::heard(inbox, frame.index);
    if !repeat {
        if let Some(call) = frame_edit(&frame, version) {
            edit(table, &call)?;
        }
        inbox[1] = frame.count;
        frame::hear(inbox, frame.index);
    }
    Ok([repeat as u32, frame::missing(inbox)])
}
