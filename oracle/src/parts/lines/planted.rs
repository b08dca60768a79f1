//! Lines with chosen faults: what is told of them follows from the choice, and not from reading them.

use crate::frame::{Frame, LINE};
use crate::random::Random;

/// A frame of kind 0, 1 or 2 that breaks no rule and puts no zero.
pub fn legal(random: &mut Random, kind: u32) -> Frame {
    let batch = random.word();
    if kind == 0 {
        return Frame { batch, index: 0, count: 1, kind, key: 0, value: 0 };
    }
    let count = random.pick(&[1, 2, 3, 32, 33, 4095, 4096]);
    let index = random.below(count as usize) as u32;
    Frame { batch, index, count, kind, key: random.word(), value: if kind == 1 { random.word().max(1) } else { 0 } }
}

pub fn strange_kind(random: &mut Random, frame: &mut Frame) {
    frame.kind = random.pick(&[3, 4, 9, 10, 16, 17, 18, 32, 128, 254, 255]);
}

/// Breaks a rule that holds for the frame's kind; one about index and count holds for every kind.
pub fn break_rule(random: &mut Random, frame: &mut Frame) {
    match (frame.kind, random.below(8)) {
        (0, 0) => frame.key = 1 << random.below(32),
        (0, 1) | (2, 0..=2) => frame.value = 1 << random.below(32),
        (0, 2) => frame.count = random.pick(&[2, 3, 4096]),
        (0, 3) => (frame.index, frame.count) = (1, 2),
        (_, 4) => frame.count = 0,
        (_, 5) => frame.count = random.pick(&[4097, 4098, 8192, 65535]),
        (_, 6) => frame.index = frame.count,
        _ => frame.index = random.pick(&[frame.count + 1, 4096, 65535]),
    }
}

/// Bytes beside the digits, and some that other readers take for digits.
pub const NO_DIGITS: [u8; 16] = [0, 9, 10, 13, b' ', b'+', b'-', b'/', b':', b'@', b'A', b'F', b'`', b'g', 0xb0, 255];

/// Up to three of the 34 digits become other bytes; gives the first place.
pub fn bad_digits(random: &mut Random, line: &mut [u8]) -> u32 {
    let places: Vec<usize> = (0..1 + random.below(3)).map(|_| random.below(LINE - 1)).collect();
    places.iter().for_each(|&place| line[place] = random.pick(&NO_DIGITS));
    *places.iter().min().unwrap() as u32
}

/// Another length, or another last byte.
pub fn bad_length(random: &mut Random, line: &mut Vec<u8>) {
    match random.below(6) {
        0 => line.truncate(random.below(LINE)),
        1 => line.extend((0..1 + random.below(45)).map(|_| random.pick(b"0af\n"))),
        2 => line.insert(random.below(LINE), b'0'),
        3 => drop(line.remove(random.below(LINE))),
        4 => line[LINE - 1] = random.pick(&[0, 9, 11, 13, b'0', b'a', 0x8a, 255]),
        _ => line.insert(LINE - 1, b'\r'),
    }
}
