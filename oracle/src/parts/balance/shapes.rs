//! The balanced trees with the fewest nodes for the items that they need pending, and how calls come to them.

use crate::rules::{size, Supply, Tree};

/// The least weight, size plus 1, of a balanced tree that needs so many pending items: two more of them ask for a right child of a
/// third of the left one's weight, and for one node at least.
fn least_weight(pending: usize) -> usize {
    match pending {
        0 | 1 => pending + 1,
        _ => {
            let left = least_weight(pending - 2);
            left + left.div_ceil(3).max(2)
        }
    }
}

pub fn least_nodes(pending: usize) -> usize {
    least_weight(pending) - 1
}

/// The most pending items that a balanced tree of so many nodes can need.
pub fn most_pending(nodes: usize) -> usize {
    (0..).take_while(|&pending| least_nodes(pending) <= nodes).last().unwrap()
}

/// That tree, of the least nodes, over keys that ascend.
pub fn worst(supply: &mut Supply, pending: usize, keys: &[u32]) -> Tree {
    assert_eq!(keys.len(), least_nodes(pending));
    if pending < 2 {
        return halved(supply, keys);
    }
    let at = least_nodes(pending - 2);
    let left = worst(supply, pending - 2, &keys[..at]);
    let right = halved(supply, &keys[at + 1..]);
    supply.make(keys[at], value(keys[at]), left, right)
}

/// Both sides alike at every node.
fn halved(supply: &mut Supply, keys: &[u32]) -> Tree {
    let at = keys.len() / 2;
    let &key = keys.get(at)?;
    let left = halved(supply, &keys[..at]);
    let right = halved(supply, &keys[at + 1..]);
    supply.make(key, value(key), left, right)
}

/// The value that a key has in all of these trees.
pub fn value(key: u32) -> u32 {
    1 + key % 3
}

/// Each side weighs at most 3 times the other, at every node.
pub fn balanced(tree: &Tree) -> bool {
    let Some(node) = tree else { return true };
    let (left, right) = (size(&node.left) + 1, size(&node.right) + 1);
    left <= 3 * right && right <= 3 * left && balanced(&node.left) && balanced(&node.right)
}

/// The same keys at the same places, whatever the numbers.
pub fn alike(a: &Tree, b: &Tree) -> bool {
    match (a, b) {
        (None, None) => true,
        (Some(a), Some(b)) => a.key == b.key && alike(&a.left, &b.left) && alike(&a.right, &b.right),
        _ => false,
    }
}

/// The keys of a balanced tree in an order in which inserts build it with no rotation: leaves are taken off below the heavier
/// child, which keeps the tree balanced, and put back the other way round.
pub fn order(tree: &Tree) -> Vec<u32> {
    let mut left = Twig::of(tree);
    let mut keys: Vec<u32> = (0..size(tree)).map(|_| Twig::take(&mut left)).collect();
    keys.reverse();
    keys
}

/// A tree that leaves are taken off.
struct Twig {
    key: u32,
    size: usize,
    sides: [Option<Box<Twig>>; 2],
}

impl Twig {
    fn of(tree: &Tree) -> Option<Box<Twig>> {
        let node = tree.as_ref()?;
        Some(Box::new(Twig { key: node.key, size: node.size, sides: [Twig::of(&node.left), Twig::of(&node.right)] }))
    }

    /// Takes the leaf below the heavier children off.
    fn take(twig: &mut Option<Box<Twig>>) -> u32 {
        let node = twig.as_mut().expect("a tree with a leaf");
        if node.size == 1 {
            return twig.take().unwrap().key;
        }
        node.size -= 1;
        let [left, right] = node.sides.each_ref().map(|side| side.as_ref().map_or(0, |side| side.size));
        Twig::take(&mut node.sides[(right > left) as usize])
    }
}
