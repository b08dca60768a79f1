//! Calls drawn for a list: the table's own, and lines of a batch that comes over a link which loses, repeats and garbles.

use crate::frame::Frame;
use crate::kiosk::Call;
use crate::parts::lines::planted;
use crate::random::Random;

const EDGES: [u32; 6] = [0, 1, (1 << 31) - 1, 1 << 31, u32::MAX - 1, u32::MAX];

/// Which keys a list draws: below a bound, or from anywhere.
#[derive(Clone, Copy)]
pub struct Keys(pub Option<usize>);

impl Keys {
    pub fn draw(self, random: &mut Random) -> u32 {
        match self.0 {
            Some(bound) => random.below(bound) as u32,
            None if random.once_in(2) => random.pick(&EDGES),
            None => random.word() & random.pick(&[0xf, 0x8000_000f, u32::MAX]),
        }
    }
}

fn value(random: &mut Random) -> u32 {
    match random.below(8) {
        0 => 0,
        1 => random.pick(&EDGES),
        _ => 1 + random.below(9) as u32,
    }
}

/// A batch on its way: a frame for each index.
pub struct Link {
    pub batch: u32,
    frames: Vec<Frame>,
}

impl Link {
    pub fn drawn(random: &mut Random, keys: Keys) -> Link {
        let (batch, count) = (random.word(), random.pick(&[1, 1, 2, 5, 33, 100]));
        let frame = |index| match random.below(if count == 1 { 5 } else { 4 }) {
            4 => Frame { batch, index, count, kind: 0, key: 0, value: 0 },
            3 => Frame { batch, index, count, kind: 2, key: keys.draw(random), value: 0 },
            _ => Frame { batch, index, count, kind: 1, key: keys.draw(random), value: value(random) },
        };
        Link { batch, frames: (0..count).map(frame).collect() }
    }

    /// Whether a line stands for another frame than the batch has at its index.
    pub fn is_other(&self, line: &[u8]) -> bool {
        Frame::parse(line).is_some_and(|frame| self.frames.get(frame.index as usize) != Some(&frame))
    }

    /// Any of its lines, mostly as it was sent.
    pub fn line(&self, random: &mut Random, keys: Keys) -> Vec<u8> {
        let mut frame = random.pick(&self.frames);
        match random.below(16) {
            0 => planted::strange_kind(random, &mut frame),
            1 => planted::break_rule(random, &mut frame),
            2 => frame.batch ^= 1 << random.below(32),
            3 => frame.count += 1,
            4 => (frame.kind, frame.value) = (1, 0),
            5 => (frame.kind, frame.key, frame.value) = (1, keys.draw(random), 7),
            _ => {}
        }
        let mut line = frame.line();
        match random.below(24) {
            0 => {
                planted::bad_digits(random, &mut line);
            }
            1 => planted::bad_length(random, &mut line),
            _ => {}
        }
        line
    }
}

/// A call; with `growing` inserts lead, so that the kiosk fills.
pub fn call(random: &mut Random, keys: Keys, link: &Link, growing: bool) -> Call {
    let key = keys.draw(random);
    match random.below(if growing { 26 } else { 20 }) {
        0..=2 => Call::Lookup { key },
        3..=5 => Call::Remove { key },
        6 | 7 => list(random),
        8 => Call::Missing,
        9..=14 => Call::Receive { line: link.line(random, keys) },
        _ => Call::Insert { key, value: value(random) },
    }
}

/// From the start, from anywhere or from far behind; outputs are sometimes short, and sometimes no whole rows.
fn list(random: &mut Random) -> Call {
    let start = match random.below(4) {
        0 | 1 => 0,
        2 => random.below(70) as u32,
        _ => random.pick(&[1, 64, 65, 1 << 30, 1 << 31, u32::MAX]),
    };
    let room = random.pick(&[0, 1, 3, 4, 7, 8, 41, 256, 300]);
    Call::List { start, room }
}

/// The whole listing.
pub const WHOLE: Call = Call::List { start: 0, room: 256 };
