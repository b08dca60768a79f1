//! What the original does not have, as one would write it in Rust for speed: lines and inbox. The benchmark sets the exports
//! beside these, so that frames and receive have something fair to be measured against.

use crate::frame::{Frame, LINE};
use crate::original::{self, Map};
use crate::plain::frame_edit;
use crate::walk::Change;

const DIGITS: &[u8; 16] = b"0123456789abcdef";

fn write_number(out: &mut [u8], mut number: u32) {
    for place in out.iter_mut().rev() {
        *place = DIGITS[(number % 16) as usize];
        number /= 16;
    }
}

pub fn write_line(out: &mut [u8], frame: &Frame) {
    write_number(&mut out[0..8], frame.batch);
    write_number(&mut out[8..12], frame.index);
    write_number(&mut out[12..16], frame.count);
    write_number(&mut out[16..18], frame.kind);
    write_number(&mut out[18..26], frame.key);
    write_number(&mut out[26..34], frame.value);
    out[34] = b'\n';
}

fn read_number(digits: &[u8]) -> Option<u32> {
    digits.iter().try_fold(0, |number, &digit| {
        let worth = match digit {
            b'0'..=b'9' => digit - b'0',
            b'a'..=b'f' => digit - b'a' + 10,
            _ => return None,
        };
        Some(16 * number + worth as u32)
    })
}

pub fn read_line(line: &[u8]) -> Option<Frame> {
    if line.len() != LINE || line[34] != b'\n' {
        return None;
    }
    let frame = Frame {
        batch: read_number(&line[0..8])?,
        index: read_number(&line[8..12])?,
        count: read_number(&line[12..16])?,
        kind: read_number(&line[16..18])?,
        key: read_number(&line[18..26])?,
        value: read_number(&line[26..34])?,
    };
    frame.legal().then_some(frame)
}

/// Puts, then removes, by the original's own walk.
fn changes(from: &Map, to: &Map) -> Vec<Change> {
    let puts = to
        .difference_entries(from)
        .filter(|(_, value, other)| *other != Some(*value))
        .map(|(key, value, _)| Change::Put(key, *value));
    let removes = from.difference_entries(to).filter(|(_, _, other)| other.is_none()).map(|(key, _, _)| Change::Remove(key));
    puts.chain(removes).collect()
}

/// The lines of a delta; gives how many there are.
pub fn frames(from: &Map, to: &Map, batch: u32, out: &mut [u8]) -> u32 {
    let changes = changes(from, to);
    let count = changes.len() as u32;
    for (index, (place, change)) in out.chunks_exact_mut(LINE).zip(&changes).enumerate() {
        let (kind, key, value) = match *change {
            Change::Put(key, value) => (1, key, value),
            Change::Remove(key) => (2, key, 0),
        };
        write_line(place, &Frame { batch, index: index as u32, count, kind, key, value });
    }
    count
}

fn inbox_sound(inbox: &[u32]) -> bool {
    let (count, heard) = (inbox[1] as usize, &inbox[2..]);
    let past = count / 32;
    count <= 4096 && (past == 128 || heard[past] >> (count % 32) == 0 && heard[past + 1..].iter().all(|&word| word == 0))
}

/// Takes a line in; gives how many are missing, or none if the line or the inbox is refused.
pub fn receive(maps: &mut [Map], inbox: &mut [u32], version: u32, line: &[u8]) -> Option<u32> {
    if !inbox_sound(inbox) {
        return None;
    }
    let frame = read_line(line)?;
    if frame.batch != inbox[0] || inbox[1] != 0 && inbox[1] != frame.count || frame.kind == 1 && frame.value == 0 {
        return None;
    }
    let (word, bit) = (2 + frame.index as usize / 32, 1 << (frame.index % 32));
    if inbox[word] & bit == 0 {
        frame_edit(&frame, version).map(|call| original::edit(maps, &call));
        inbox[1] = frame.count;
        inbox[word] |= bit;
    }
    Some(inbox[1] - inbox[2..].iter().map(|word| word.count_ones()).sum::<u32>())
}
