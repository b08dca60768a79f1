//! Pairs of small hand-made trees with the answer worked out by hand. A left chain of 64 can be walked, and one of 65 cannot.

use super::asked::ask;
use super::met::Met;
use crate::history::Trio;
use crate::parts::uneven::{holding, Lean};
use crate::parts::Compared;
use crate::random::Random;
use crate::rules::{Supply, Tree};
use crate::table::Table;

const NEVER: usize = usize::MAX;

struct Maker<'a> {
    random: &'a mut Random,
    supply: Supply,
}

impl Maker<'_> {
    /// The keys from a first to before a last, each with itself as value.
    fn chain(&mut self, lean: Lean, keys: std::ops::Range<u32>) -> Tree {
        let entries: Vec<(u32, u32)> = keys.map(|key| (key, key)).collect();
        holding(self.random, &mut self.supply, &entries, lean, NEVER)
    }

    /// Key 10 above a leaf of key 5 and what is to the right.
    fn above(&mut self, five: u32, right: &Tree) -> Tree {
        let leaf = self.supply.make(5, five, None, None);
        self.supply.make(10, 10, leaf, right.clone())
    }

    /// Key 10 with nothing to its left.
    fn alone(&mut self, right: &Tree) -> Tree {
        self.supply.make(10, 10, None, right.clone())
    }
}

const YES: [u32; 2] = [0, 1];
const NO: [u32; 2] = [0, 0];
const DEEP: [u32; 2] = [6, 0];

/// A, B and the answer.
type Pair = (&'static str, Tree, Tree, [u32; 2]);

fn chains(m: &mut Maker) -> Vec<Pair> {
    let [left_64, other_64] = [0; 2].map(|_| m.chain(Lean::Left, 0..64));
    let [left_65, other_65] = [0; 2].map(|_| m.chain(Lean::Left, 0..65));
    let [right_64, right_65, right_200] = [64, 65, 200].map(|end| m.chain(Lean::Right, 0..end));
    let least = m.chain(Lean::Left, 0..1);
    vec![
        ("both empty", None, None, YES),
        ("empty to a left chain of 64", None, left_64.clone(), NO),
        ("empty to a left chain of 65", None, left_65.clone(), DEEP),
        ("empty to a right chain of 200", None, right_200.clone(), NO),
        ("a left chain of 65 to empty", left_65.clone(), None, NO),
        ("a chain with itself", left_65.clone(), left_65.clone(), YES),
        ("equal chains of 64", left_64.clone(), other_64, YES),
        ("equal chains of 65", left_65.clone(), other_65, DEEP),
        ("a left chain of 64 to a right one", left_64.clone(), right_64.clone(), YES),
        ("a right chain of 64 to a left one", right_64.clone(), left_64.clone(), YES),
        ("a left chain of 65 to a right one", left_65.clone(), right_65, DEEP),
        ("a left chain of 64 to its least key", left_64.clone(), least.clone(), NO),
        ("a left chain of 65 to its least key", left_65.clone(), least.clone(), DEEP),
        ("the least key to a right chain of 200", least.clone(), right_200.clone(), NO),
        ("a right chain of 200 to its least key", right_200, least, NO),
        ("a right chain of 64 to a left one of 65", right_64, left_65, DEEP),
    ]
}

/// What differs stands before a chain of 70, in it, or nowhere.
fn fronts(m: &mut Maker) -> Vec<Pair> {
    let [chain, other] = [0; 2].map(|_| m.chain(Lean::Left, 20..90));
    let [five, six] = [5, 6].map(|five| m.above(five, &chain));
    let [apart, shorter, bare] = [other.clone(), m.chain(Lean::Left, 20..89), None].map(|right| m.above(5, &right));
    let [six_apart, without, without_apart] = [m.above(6, &other), m.alone(&chain), m.alone(&other)];
    vec![
        ("another value before a shared chain", five.clone(), six.clone(), NO),
        ("another value before a chain", five.clone(), six_apart, NO),
        ("a new key before a chain", without_apart.clone(), five.clone(), NO),
        ("a shared chain, equal before it", five.clone(), m.above(5, &chain), YES),
        ("a chain, equal before it", five.clone(), apart.clone(), DEEP),
        ("a chain without its last, equal before it", five.clone(), shorter.clone(), DEEP),
        ("a chain with one more, equal before it", shorter, apart, DEEP),
        ("a key less before a shared chain", five.clone(), without, NO),
        ("a key less before a chain", five.clone(), without_apart, DEEP),
        ("no chain any more", five.clone(), bare.clone(), NO),
        ("a chain that was not there", bare, five, DEEP),
    ]
}

pub fn all(random: &mut Random, met: &mut Met) -> Compared {
    let mut compared = 0;
    for pairs in [chains, fronts] {
        let mut numbers: Vec<u32> = (1..=1024).collect();
        random.shuffle(&mut numbers);
        for (name, from, to, answer) in pairs(&mut Maker { random: &mut *random, supply: Supply::new(numbers) }) {
            let mut table = Table::fresh(1024);
            [table.versions[3], table.versions[9]] = [from, to];
            let told = ask(&mut Trio::of(table), 3, 9, met).map_err(|what| format!("{name}: {what}"))?;
            if told != answer {
                return Err(format!("{name}: {told:?}, not {answer:?}"));
            }
            compared += 1;
        }
    }
    Ok(compared)
}
