//! Lines at a standby where several checks fail at once: the first in the documents' order decides, and nothing else is told.

use super::planted;
use super::standby::{self, Standby};
use crate::frame::{self, Fault, Frame, INBOX};
use crate::parts::room::filled;
use crate::parts::{checks, Compared};
use crate::random::Random;
use std::collections::BTreeSet;

/// The checks of receive in their order; those from `Length` to `Range` are parse's too.
#[derive(Clone, Copy, PartialEq, Eq, PartialOrd, Ord, Debug)]
pub enum Check {
    BlockShape,
    InboxShape,
    BlockSound,
    InboxSound,
    Version,
    Length,
    Digit,
    Kind,
    Range,
    Batch,
    Count,
    Zero,
    Room,
}

use Check::*;

pub const CHECKS: [(Check, u32); 13] = [
    (BlockShape, 1),
    (InboxShape, 1),
    (BlockSound, 2),
    (InboxSound, 2),
    (Version, 3),
    (Length, 7),
    (Digit, 10),
    (Kind, 11),
    (Range, 12),
    (Batch, 8),
    (Count, 9),
    (Zero, 13),
    (Room, 5),
];

pub type Fails = BTreeSet<Check>;

/// Room is short for a put alone, and only a put can put 0.
pub fn frame(random: &mut Random, fails: &Fails) -> Frame {
    let put = fails.contains(&Room) || fails.contains(&Zero);
    let kind = if put { 1 } else { random.below(3) as u32 };
    let mut frame = planted::legal(random, kind);
    if fails.contains(&Zero) {
        frame.value = 0;
    }
    if fails.contains(&Kind) {
        planted::strange_kind(random, &mut frame);
    }
    if fails.contains(&Range) {
        planted::break_rule(random, &mut frame);
    }
    frame
}

/// The line and the first bad digit's place.
pub fn line(random: &mut Random, frame: &Frame, fails: &Fails) -> (Vec<u8>, u32) {
    let mut line = frame.line();
    let place = if fails.contains(&Digit) { planted::bad_digits(random, &mut line) } else { 0 };
    if fails.contains(&Length) {
        planted::bad_length(random, &mut line);
    }
    (line, place)
}

fn block(random: &mut Random, frame: &Frame, version: u32, fails: &Fails) -> Vec<u32> {
    let mut table = standby::table(random, version, frame);
    if fails.contains(&Room) {
        table = filled(random, &table, 0);
    }
    let mut block = table.words();
    if fails.contains(&BlockSound) {
        checks::unsound(random, &mut block, version);
    }
    if fails.contains(&BlockShape) {
        checks::misshapen(random, &mut block);
    }
    block
}

/// An inbox in which the frame was heard or not; one that finds no room was not.
pub fn inbox(random: &mut Random, frame: &Frame, fails: &Fails) -> Vec<u32> {
    let batch = if fails.contains(&Batch) { frame.batch ^ 1 << random.below(32) } else { frame.batch };
    let others: Vec<u32> = [1, 2, 3, 64, 4095, 4096].into_iter().filter(|&count| count != frame.count).collect();
    let known = frame.count <= 4096 && random.once_in(2);
    let count = match fails.contains(&Count) {
        true => random.pick(&others),
        false => frame.count * known as u32,
    };
    let mut inbox = standby::inbox(random, batch, count);
    if frame.index < count && fails.contains(&Room) {
        inbox[2 + frame.index as usize / 32] &= !(1 << (frame.index % 32));
    } else if frame.index < count && random.once_in(2) {
        frame::hear(&mut inbox, frame.index);
    }
    if fails.contains(&InboxSound) && count < 4096 && random.once_in(2) {
        frame::hear(&mut inbox, count + random.below(4096 - count as usize) as u32);
    } else if fails.contains(&InboxSound) {
        inbox[1] = random.pick(&[4097, 5000, 1 << 31, u32::MAX]);
    }
    if fails.contains(&InboxShape) {
        inbox.resize(random.pick(&[0, 1, INBOX - 1, INBOX + 1, 2 * INBOX]), 0);
    }
    inbox
}

/// Fails what is to fail, and nothing else.
fn case(random: &mut Random, fails: &Fails) -> Result<(), String> {
    let frame = frame(random, fails);
    let (line, place) = line(random, &frame, fails);
    let version = random.below(15) as u32;
    let (block, inbox) = (block(random, &frame, version, fails), inbox(random, &frame, fails));
    let beyond = random.pick(&[16, 17, 255, 1 << 31, u32::MAX]);
    let standby = Standby { block, inbox, version: if fails.contains(&Version) { beyond } else { version } };
    let told = |(check, number): &(Check, u32)| Fault { number: *number, place: if *check == Digit { place } else { 0 } };
    let mut failing = CHECKS.iter().filter(|(check, _)| fails.contains(check));
    let of_line = failing.clone().find(|(check, _)| (Length..=Range).contains(check)).map(told);
    let expected = of_line.map_or(Ok(frame), Err);
    if Frame::read(&line) != expected {
        return Err(format!("{:?} does not read as it was made: {expected:?}", String::from_utf8_lossy(&line)));
    }
    super::parse(&line, expected)?;
    let known = failing.next().map(told);
    let reply = standby.hear(&line, known)?;
    if known.is_none() && reply.number != 0 {
        return Err(format!("a good line is refused with {}", reply.number));
    }
    Ok(())
}

pub fn every_pair(random: &mut Random) -> Compared {
    checks::every_pair(random, &CHECKS.map(|(check, _)| check), case)
}
