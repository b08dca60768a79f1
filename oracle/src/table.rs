//! Sixteen numbered trees, and the one block that shows them.

use crate::block::{length, mark, place, Block, WIDTH};
use crate::rules::{Node, Tree};
use std::rc::Rc;

#[derive(Clone)]
pub struct Table {
    pub n: usize,
    pub versions: [Tree; 16],
}

impl Table {
    pub fn fresh(n: usize) -> Self {
        Table { n, versions: Default::default() }
    }

    /// The trees of a sound block.
    pub fn read(words: &[u32]) -> Self {
        let block = Block(words);
        let mut known = vec![None; block.n() + 1];
        Table { n: block.n(), versions: std::array::from_fn(|version| read_tree(block, &mut known, block.root(version))) }
    }

    /// The nodes that hang under a root, and how many roots and links name each.
    fn counted(&self) -> Vec<Option<(&Node, u32)>> {
        let mut nodes = vec![None; self.n + 1];
        self.versions.iter().for_each(|tree| count_tree(&mut nodes, tree));
        nodes
    }

    /// Every word: N, roots, occupancy, nodes, zeros elsewhere.
    pub fn words(&self) -> Vec<u32> {
        let mut words = vec![0; length(self.n)];
        words[0] = self.n as u32;
        for (version, tree) in self.versions.iter().enumerate() {
            words[1 + version] = number(tree);
        }
        for (node, count) in self.counted().into_iter().flatten() {
            let (word, bit) = mark(node.number);
            words[word] |= bit;
            let sum = minutes(node);
            let fields = [node.key, node.value, number(&node.left), number(&node.right), node.size as u32, count, sum as u32, (sum >> 32) as u32];
            let at = place(self.n, node.number);
            words[at..at + WIDTH].copy_from_slice(&fields);
        }
        words
    }

    /// The free numbers, lowest first.
    pub fn free(&self) -> Vec<u32> {
        let nodes = self.counted();
        (1..=self.n as u32).filter(|&i| nodes[i as usize].is_none()).collect()
    }
}

/// The sum of the values below a node, added up one by one.
fn minutes(node: &Node) -> u64 {
    let below = |tree: &Tree| tree.as_ref().map_or(0, |node| minutes(node));
    node.value as u64 + below(&node.left) + below(&node.right)
}

pub fn number(tree: &Tree) -> u32 {
    tree.as_ref().map_or(0, |node| node.number)
}

fn read_tree(block: Block, known: &mut Vec<Tree>, link: u32) -> Tree {
    if link != 0 && known[link as usize].is_none() {
        let node = block.node(link);
        let left = read_tree(block, known, node.left);
        let right = read_tree(block, known, node.right);
        let size = node.size as usize;
        known[link as usize] = Some(Rc::new(Node { number: link, key: node.key, value: node.value, left, right, size }));
    }
    known[link as usize].clone()
}

fn count_tree<'a>(nodes: &mut Vec<Option<(&'a Node, u32)>>, tree: &'a Tree) {
    let Some(node) = tree else { return };
    match &mut nodes[node.number as usize] {
        Some((_, count)) => *count += 1,
        unseen => {
            *unseen = Some((node, 1));
            count_tree(nodes, &node.left);
            count_tree(nodes, &node.right);
        }
    }
}
