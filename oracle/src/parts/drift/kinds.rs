//! What kind of pair a question was about: told from the entries and from whole walks.

use super::met::Met;
use crate::rules::Tree;
use crate::table::number;
use crate::walk::{rows, walk};
use std::collections::{BTreeMap, BTreeSet};

type Entries = BTreeMap<u32, u32>;

fn visit(tree: &Tree, entries: &mut Entries, numbers: &mut BTreeSet<u32>) {
    if let Some(node) = tree {
        entries.insert(node.key, node.value);
        numbers.insert(node.number);
        visit(&node.left, entries, numbers);
        visit(&node.right, entries, numbers);
    }
}

fn seen(tree: &Tree) -> (Entries, BTreeSet<u32>) {
    let mut seen = Default::default();
    let (entries, numbers) = &mut seen;
    visit(tree, entries, numbers);
    seen
}

pub fn entries(tree: &Tree) -> Entries {
    seen(tree).0
}

pub fn sort(from: &Tree, to: &Tree, answer: [u32; 2], met: &mut Met) {
    let [a, b] = [from, to].map(entries);
    let puts: Vec<u32> = b.iter().filter(|&(key, value)| a.get(key) != Some(value)).map(|(&key, _)| key).collect();
    match (answer, puts.first()) {
        ([0, 1], _) => yes(from, to, met),
        ([0, _], Some(&put)) => no_for_a_put(from, to, put, met),
        ([0, _], None) => {
            let back = rows(from, to).is_err();
            met.when(!b.is_empty(), "no: sizes, after a walk");
            met.when(b.is_empty(), "no: sizes, nothing to walk");
            met.when(!b.is_empty() && back, "no: sizes where the walk back is too deep");
            met.when(b.is_empty() && back, "no: sizes where B is empty and the walk back is too deep");
        }
        (_, put) => {
            let last = walk(to, from).map_while(Result::ok).last();
            let passed = last.is_some_and(|row| a.keys().any(|key| *key < row[0] && !b.contains_key(key)));
            met.when(put.is_some(), "6: the put comes later");
            met.when(put.is_some() && last.is_some(), "6: the put comes later, rows came before");
            met.when(put.is_none() && a.len() > b.len(), "6: the sizes differ and there is no put");
            met.when(passed, "6: a key that A alone has was passed");
            met.when(a == b, "6: the same entries");
        }
    }
}

fn yes(from: &Tree, to: &Tree, met: &mut Met) {
    let [a, b] = [from, to].map(|tree| seen(tree).1);
    let apart = number(from) != number(to);
    met.when(a.is_empty(), "yes: both empty");
    met.when(!a.is_empty() && !apart, "yes: one tree");
    met.when(apart && !a.is_disjoint(&b), "yes: apart, nodes shared");
    met.when(apart && a.is_disjoint(&b), "yes: apart, no node shared");
}

fn no_for_a_put(from: &Tree, to: &Tree, put: u32, met: &mut Met) {
    let [a, b] = [from, to].map(entries);
    met.when(!a.contains_key(&put), "no: a put of a new key");
    met.when(a.contains_key(&put), "no: a put of another value");
    met.when(a.keys().any(|key| *key < put && !b.contains_key(key)), "no: a put after a key that A alone has");
    match rows(to, from) {
        Ok(all) => {
            let at = all.iter().position(|row| row[0] == put).expect("a put is a row");
            met.when(at == 0, "no: the first row is the put");
            met.when(0 < at && at + 1 < all.len(), "no: a row between others is the first put");
            met.when(0 < at && at + 1 == all.len(), "no: the last row is the only put");
            met.when(rows(from, to).is_err(), "no: a put where the walk back is too deep");
        }
        Err(_) => {
            met.when(true, "no: a put before the walk is too deep");
            met.when(b.keys().any(|key| *key < put), "no: a put in a later row before the walk is too deep");
        }
    }
}
