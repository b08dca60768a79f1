//! Every batch of up to three records over three keys, on every tree of those keys, in place and into another version.

use crate::call::Call;
use crate::history::Trio;
use crate::parts::room::both;
use crate::parts::Compared;
use crate::plain::makes;
use crate::random::Random;
use crate::rules::{Supply, Tree};
use crate::table::Table;

const KEYS: [u32; 3] = [1, 2, 3];
const LENGTH: usize = 3;

/// A shape of the keys: the top's place among them, and what hangs below it.
enum Shape {
    None,
    Top(usize, Box<Shape>, Box<Shape>),
}

/// Every shape of so many keys.
fn shapes(keys: usize) -> Vec<Shape> {
    if keys == 0 {
        return vec![Shape::None];
    }
    let mut all = vec![];
    for top in 0..keys {
        for left in 0..shapes(top).len() {
            for right in shapes(keys - 1 - top) {
                all.push(Shape::Top(top, Box::new(shapes(top).swap_remove(left)), Box::new(right)));
            }
        }
    }
    all
}

fn tree(supply: &mut Supply, keys: &[u32], shape: &Shape) -> Tree {
    let Shape::Top(top, left, right) = shape else { return None };
    let (left, right) = (tree(supply, &keys[..*top], left), tree(supply, &keys[top + 1..], right));
    supply.make(keys[*top], 9, left, right)
}

/// Every tree of some of the keys in version 0; with `shared` version 2 is its copy.
fn starts(shared: bool) -> Vec<Table> {
    let mut starts = vec![];
    for chosen in 0..1 << KEYS.len() {
        let keys: Vec<u32> = (0..KEYS.len()).filter(|at| chosen >> at & 1 == 1).map(|at| KEYS[at]).collect();
        for shape in shapes(keys.len()) {
            let mut table = Table::fresh(32);
            table.versions[0] = tree(&mut Supply::new(table.free()), &keys, &shape);
            if shared {
                table.versions[2] = table.versions[0].clone();
            }
            starts.push(table);
        }
    }
    starts
}

/// Every batch of up to so many records; a value tells which record put it.
fn batches(length: usize) -> Vec<Vec<u32>> {
    if length == 0 {
        return vec![vec![]];
    }
    let shorter = batches(length - 1);
    let longest = shorter.iter().filter(|batch| batch.len() == 3 * (length - 1));
    let records = KEYS.iter().flat_map(|&key| [[1, key, length as u32], [2, key, 7]]);
    let longer: Vec<Vec<u32>> =
        longest.flat_map(|batch| records.clone().map(move |record| [&batch[..], &record].concat())).collect();
    [shorter, longer].concat()
}

pub fn all() -> Compared {
    let (batches, random) = (batches(LENGTH), &mut Random::new(0));
    let mut compared = 0;
    for (dest, shared) in [(0, false), (0, true), (1, false), (2, true)] {
        for table in starts(shared) {
            for edits in &batches {
                let call = Call::Batch { dest, source: 0, edits: edits.clone() };
                Trio::of(table.clone()).step(&call)?;
                compared += 1;
                let made = makes(&table, &call);
                if made > 0 {
                    compared += both(random, &table, &call, made)?;
                }
            }
        }
    }
    Ok(compared)
}
