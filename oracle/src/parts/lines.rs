//! Lines under parse and receive: good ones, each byte changed to every other, every length, fields at their limits, and
//! several checks failing at once. What is told is the first fault of the line, and a bad digit's place with it.

mod met;
pub mod planted;
pub mod several;
mod standby;

use super::{Compared, Effort};
use crate::exports;
use crate::frame::{Fault, Frame};
use crate::random::Random;
use met::Met;
use standby::Standby;
use std::cell::RefCell;

/// What parse must answer: the fault with zeros in every field, or the frame.
fn parse(line: &[u8], expected: Result<Frame, Fault>) -> Result<(), String> {
    let zeros = Frame { batch: 0, index: 0, count: 0, kind: 0, key: 0, value: 0 };
    let expected = expected.map_or_else(|fault| (fault.number, fault.place, zeros), |frame| (0, 0, frame));
    let told = exports::parse(line);
    if told == expected {
        Ok(())
    } else {
        Err(format!("line {:?}: {told:?}, not {expected:?}", String::from_utf8_lossy(line)))
    }
}

/// A frame whose fields stand at, just inside or just outside their limits.
fn drawn(random: &mut Random) -> Frame {
    let mut word = || random.next() as u32 >> random.below(33).min(31);
    let (batch, key, value) = (word(), word(), word());
    let count: u32 = random.pick(&[0, 1, 1, 2, 17, 4095, 4096, 4097, 65535]);
    let index = random.pick(&[0, 0, 1, count.wrapping_sub(1) & 0xffff, count, 4095, 4096]);
    let kind = random.pick(&[0, 1, 1, 1, 2, 2, 3, 16, 255]);
    let none = random.once_in(3);
    Frame { batch, index, count, kind, key: if none { 0 } else { key }, value: if none || random.once_in(2) { 0 } else { value } }
}

/// A drawn frame and its line, in which digits are sometimes bad already.
fn garbled(random: &mut Random) -> (Frame, Vec<u8>) {
    let frame = drawn(random);
    let mut line = frame.line();
    if random.once_in(4) {
        planted::bad_digits(random, &mut line);
    }
    (frame, line)
}

/// The line with each of its bytes changed to every other.
fn each_byte(line: &[u8], mut compare: impl FnMut(&[u8]) -> Result<(), String>) -> Compared {
    let mut changed = line.to_vec();
    for at in 0..line.len() {
        for byte in 0..=255 {
            changed[at] = byte;
            compare(&changed)?;
        }
        changed[at] = line[at];
    }
    Ok(256 * line.len() as u64)
}

/// The first and the last bytes of lines one after another, none to eighty of them.
fn each_length(line: &[u8], mut compare: impl FnMut(&[u8]) -> Result<(), String>) -> Compared {
    const MOST: usize = 80;
    let longer = [line, line, line].concat();
    for bytes in 0..=MOST {
        compare(&longer[..bytes])?;
        compare(&longer[longer.len() - bytes..])?;
    }
    Ok(2 * (MOST as u64 + 1))
}

pub fn read(effort: Effort) -> Compared {
    let met = RefCell::new(Met::default());
    let compare = |line: &[u8]| {
        met.borrow_mut().line(line);
        parse(line, Frame::read(line))
    };
    let compared = effort.each(400, |random| {
        for _ in 0..100 {
            compare(&drawn(random).line())?;
        }
        let (_, line) = garbled(random);
        Ok(100 + each_byte(&line, compare)? + each_length(&line, compare)?)
    })?;
    met.into_inner().complete(&[0, 7, 10, 11, 12])?;
    Ok(compared)
}

/// The same lines at a standby that waits for them: a faulty one changes nothing there.
pub fn received(effort: Effort) -> Compared {
    let met = RefCell::new(Met::default());
    let compare = |standby: &Standby, line: &[u8]| {
        let reply = standby.hear(line, Frame::read(line).err())?;
        met.borrow_mut().answer(reply.number, reply.place);
        Ok(())
    };
    let compared = effort.each(40, |random| {
        for _ in 0..100 {
            let frame = drawn(random);
            compare(&Standby::awaiting(random, &frame), &frame.line())?;
        }
        let (frame, line) = garbled(random);
        let standby = Standby::awaiting(random, &frame);
        let compare = |line: &[u8]| compare(&standby, line);
        Ok(100 + each_byte(&line, compare)? + each_length(&line, compare)?)
    })?;
    met.into_inner().complete(&[0, 7, 8, 9, 10, 11, 12, 13])?;
    Ok(compared)
}

pub fn several(effort: Effort) -> Compared {
    effort.each(500, several::every_pair)
}
