//! A look at the original's private nodes, and original maps that stand as a block says.

use super::{DataNode, Node, WBTreeMap};
use crate::block::Block;
use std::rc::Rc;

/// A node of an original map.
#[derive(Clone, Copy)]
pub struct Spot<'a>(&'a DataNode<u32>, usize);

fn spot(link: &Option<Rc<Node<u32>>>) -> Option<Spot<'_>> {
    link.as_ref().map(|node| match node.as_ref() {
        Node::Data(data) => Spot(data, Rc::as_ptr(node) as usize),
        Node::Mapping(_) => unreachable!("no map is mapped here"),
    })
}

pub fn root(map: &WBTreeMap<u32>) -> Option<Spot<'_>> {
    spot(&map.root)
}

impl<'a> Spot<'a> {
    pub fn address(self) -> usize {
        self.1
    }

    pub fn key(self) -> u32 {
        self.0.key
    }

    pub fn value(self) -> u32 {
        self.0.value
    }

    pub fn size(self) -> usize {
        self.0.size
    }

    pub fn left(self) -> Option<Spot<'a>> {
        spot(&self.0.left)
    }

    pub fn right(self) -> Option<Spot<'a>> {
        spot(&self.0.right)
    }
}

/// Sixteen original maps with the shapes and the sharing of a sound block: edits of trees that no edit would build,
/// and edits of nodes that nothing else holds, need a start of this kind.
pub fn plant(words: &[u32]) -> Vec<WBTreeMap<u32>> {
    let block = Block(words);
    let mut nodes: Vec<Option<Rc<Node<u32>>>> = vec![None; block.n() + 1];
    (0..16)
        .map(|version| {
            let root = grow(block, &mut nodes, block.root(version));
            WBTreeMap { len: Node::size(&root), root }
        })
        .collect()
}

fn grow(block: Block, nodes: &mut Vec<Option<Rc<Node<u32>>>>, number: u32) -> Option<Rc<Node<u32>>> {
    if number != 0 && nodes[number as usize].is_none() {
        let node = block.node(number);
        let left = grow(block, nodes, node.left);
        let right = grow(block, nodes, node.right);
        nodes[number as usize] = Some(Node::new_data_node(node.key, node.value, left, right));
    }
    nodes[number as usize].clone()
}
