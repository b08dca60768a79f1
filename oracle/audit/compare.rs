//! Blocks that all three audits must judge alike.

use crate::blocks::{self, Block, Random};
use crate::{exported, grow, passes, sizes};

/// The answer, which all three give.
fn judged(b: &[u32], what: &str) -> u32 {
    let answer = passes::check(b);
    assert_eq!((exported(b), sizes::check(b)), (answer, answer), "{what}, N = {}", b.first().unwrap_or(&0));
    answer
}

/// How many blocks were judged, and how many of them are sound.
#[derive(Default)]
struct Count {
    all: u64,
    sound: u64,
}

impl Count {
    fn judge(&mut self, b: &[u32], what: &str) {
        self.sound += (judged(b, what) == 0) as u64;
        self.all += 1;
    }

    fn tell(&self, what: &str) {
        println!("{} {what}, {} of them sound: all three audits give the same answer each time", self.all, self.sound);
    }
}

/// One word made another: a neighbour, a node's number, one bit of it, another word of the block, or any.
fn change(b: &mut [u32], at: usize, random: &mut Random) {
    let (n, old) = (b[0] as usize, b[at]);
    b[at] = match random.below(6) {
        0 => old.wrapping_add(1),
        1 => old.wrapping_sub(1),
        2 => random.below(n % 8192 + 2) as u32,
        3 => old ^ 1 << random.below(32),
        4 => b[random.below(b.len())],
        _ => random.next() as u32,
    };
}

fn kind(round: usize, n: usize, random: &mut Random) -> Block {
    match round % 8 {
        0 | 1 => blocks::assorted(n, random),
        2 => blocks::full(n, Some(random)),
        3 => grow::entries(n, 1 + random.below(n / 2), 5, random),
        4 => grow::versions(n, 1 + random.below(n / 3), 2, random),
        5 => blocks::ends_of_keys(n, random),
        6 if random.below(2) == 0 => blocks::shared_chain(n),
        6 => blocks::right_chain(n, Some(random)),
        _ => blocks::sixteen(n, random),
    }
}

/// One to three words of sound blocks changed, two words swapped, and cut blocks.
pub fn changed(rounds: usize) {
    let mut random = Random(0x9e3779b97f4a7c15);
    let mut count = Count::default();
    for round in 0..rounds {
        let n = 32 * (1 + random.below(6));
        let sound = kind(round, n, &mut random).words;
        assert_eq!(judged(&sound, "a sound block"), 0);
        let mut b = sound.clone();
        for _ in 0..250 {
            for _ in 0..1 + random.below(6) / 4 {
                let at = if random.below(4) == 0 { random.below(17 + n / 32) } else { random.below(b.len()) };
                if random.below(5) == 0 {
                    b.swap(at, 17 + n / 32 + random.below(8 * n));
                } else {
                    change(&mut b, at, &mut random);
                }
            }
            count.judge(&b, "changed words");
            b.copy_from_slice(&sound);
        }
        let cut = random.below(b.len());
        assert_eq!(judged(&b[..cut], "a cut block"), 1);
    }
    count.tell("blocks with changed words");
}

/// Links, sizes, sums and counts are right, subtrees are shared, and keys are in order or just not.
pub fn order_alone(rounds: usize) {
    let mut random = Random(0xabcdef12345);
    let mut count = Count::default();
    for _ in 0..rounds {
        let n = 32 * (1 + random.below(3));
        let mut b = blocks::loose(n, &mut random);
        count.judge(&b.words, "order alone");
        for _ in 0..15 {
            let at = b.place(1 + random.below(n) as u32, 0);
            let old = b.words[at];
            if b.words[at + 5] != 0 {
                b.words[at] = match random.below(3) {
                    0 => b.words[b.place(1 + random.below(n) as u32, 0)],
                    _ => old.wrapping_add(random.below(9) as u32).wrapping_sub(4),
                };
                count.judge(&b.words, "one key moved");
                b.words[at] = old;
            }
        }
    }
    count.tell("blocks in which order alone is in doubt");
}

/// Large values, and sums moved to where adding up in 64 bits would wrap round.
pub fn sums(rounds: usize) {
    let mut random = Random(0x51f15eed);
    let mut count = Count::default();
    for round in 0..rounds {
        let n = 32 * (1 + random.below(2));
        let mut b = kind(round, n, &mut random);
        b.revalue(&mut |random| if random.below(3) == 0 { u32::MAX } else { random.next() as u32 }, &mut random);
        assert_eq!(judged(&b.words, "large values"), 0);
        let sound = b.words.clone();
        for _ in 0..20 {
            let node = 1 + random.below(n) as u32;
            let by = match random.below(4) {
                0 => 1 << 32,
                1 => u64::MAX << random.below(64),
                2 => 1 << random.below(64),
                _ => random.next(),
            };
            b.shift_sum(node, by);
            if random.below(2) == 0 {
                let above = b.parent(node);
                b.shift_sum(above, by);
            }
            count.judge(&b.words, "sums");
            b.words.copy_from_slice(&sound);
        }
    }
    count.tell("blocks with sums moved");
}

/// The same on blocks of the sizes that are used.
pub fn large(rounds: usize) {
    let mut random = Random(0x2545f4914f6cdd1d);
    let mut count = Count::default();
    for round in 0..rounds {
        let n = [512, 544, 2016, 2048, 2080, 4064, 4096][random.below(7)];
        let sound = kind(round, n, &mut random).words;
        let mut b = sound.clone();
        for _ in 0..60 {
            let at = if random.below(4) == 0 { random.below(17 + n / 32) } else { random.below(b.len()) };
            change(&mut b, at, &mut random);
            count.judge(&b, "a large block");
            b.copy_from_slice(&sound);
        }
    }
    count.tell("changes of blocks of N from 512 to 4,096");
}
