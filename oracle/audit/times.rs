//! Times of the exported audit, of the same passes in Rust and of the plainer ones: of one block again and again, whose branches the processor learns by heart,
//! and of eight blocks of a kind in turn.

use crate::blocks::{self, Block, Random};
use crate::{exported, grow, passes, sizes};
use std::hint::black_box;
use std::time::Instant;

const ROUNDS: usize = 1500;

type Audit = fn(&[u32]) -> u32;

/// Microseconds of an audit of one of the blocks, best of many rounds over all of them; the audits take turns, so that neither has the quieter machine.
fn times(blocks: &[Block]) -> [f64; 3] {
    let mut best = [f64::MAX; 3];
    for _ in 0..ROUNDS {
        for (best, audit) in best.iter_mut().zip([exported as Audit, sizes::check, passes::check]) {
            let start = Instant::now();
            for b in blocks {
                black_box(audit(black_box(&b.words)));
            }
            *best = best.min(start.elapsed().as_nanos() as f64 / 1000.0 / blocks.len() as f64);
        }
    }
    best
}

fn row(name: &str, answer: u32, blocks: &[Block]) {
    for b in blocks {
        assert_eq!((exported(&b.words), sizes::check(&b.words), passes::check(&b.words)), (answer, answer, answer), "{name}");
    }
    let (one, eight) = (times(&blocks[..1]), times(blocks));
    print!("  {name:40}");
    for [ours, rust, plain] in [one, eight] {
        print!(" {ours:8.1} {rust:8.1} {:6.2} {plain:8.1}", ours / rust);
    }
    println!();
}

/// One table: each kind of block, eight of it.
pub fn table(n: usize) {
    let mut random = Random(88172645463325252);
    let mut eight = |make: &mut dyn FnMut(&mut Random) -> Block| -> Vec<Block> { (0..8).map(|_| make(&mut random)).collect() };
    println!("N = {n}, {} words: µs, exported and the same in Rust, their ratio, and plainer passes in Rust; one block, then eight in turn", Block::fresh(n).words.len());
    row("fresh", 0, &eight(&mut |_| Block::fresh(n)));
    row("100 entries", 0, &eight(&mut |random| grow::entries(n, 100, 100, random)));
    row("2,000 entries", 0, &eight(&mut |random| grow::entries(n, 2000, 300, random)));
    row("full, one balanced tree, nodes in order", 0, &eight(&mut |_| blocks::full(n, None)));
    row("full, one balanced tree, shuffled", 0, &eight(&mut |random| blocks::full(n, Some(random))));
    row("full, 16 trees, shuffled", 0, &eight(&mut |random| blocks::sixteen(n, random)));
    row("16 versions that share", 0, &eight(&mut |random| grow::versions(n, n / 2, 8, random)));
    row("full, right chain", 0, &eight(&mut |_| blocks::right_chain(n, None)));
    row("full, right chain, shuffled", 0, &eight(&mut |random| blocks::right_chain(n, Some(random))));
    row("chain shared by 16 versions", 0, &eight(&mut |_| blocks::shared_chain(n)));
    row("damaged, worst for spines", 2, &eight(&mut |_| blocks::damaged(n)));
}
