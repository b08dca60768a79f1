//! Document 01's tree rules on trees whose nodes carry their number. The original has no numbers and no room;
//! these functions say which number each make takes and how much room a call needs.

use std::rc::Rc;

pub type Tree = Option<Rc<Node>>;

pub struct Node {
    pub number: u32,
    pub key: u32,
    pub value: u32,
    pub left: Tree,
    pub right: Tree,
    pub size: usize,
}

/// The numbers free now, the next make's first, and those that the call has made and not taken apart.
pub struct Supply {
    free: Vec<u32>,
    own: Vec<u32>,
    made: usize,
    most: usize,
    short: bool,
}

impl Supply {
    pub fn new(free: Vec<u32>) -> Self {
        Supply { free, own: Vec::new(), made: 0, most: 0, short: false }
    }

    pub fn made(&self) -> usize {
        self.made
    }

    /// How many numbers the call had taken at once, at the most.
    pub fn most(&self) -> usize {
        self.most
    }

    pub fn short(&self) -> bool {
        self.short
    }

    /// Makes that find no room go on too; their numbers are above every real one.
    pub fn make(&mut self, key: u32, value: u32, left: Tree, right: Tree) -> Tree {
        let number = if self.free.is_empty() {
            self.short = true;
            1_000_000 + self.made as u32
        } else {
            self.free.remove(0)
        };
        self.made += 1;
        self.own.push(number);
        self.most = self.most.max(self.own.len());
        let size = 1 + size(&left) + size(&right);
        Some(Rc::new(Node { number, key, value, left, right, size }))
    }

    /// A node is taken apart: one that the call made goes back at once, and what stood at entry does not.
    fn apart(&mut self, node: &Node) {
        if let Some(at) = self.own.iter().position(|&number| number == node.number) {
            self.own.swap_remove(at);
            if node.number < 1_000_000 {
                let at = self.free.partition_point(|&number| number < node.number);
                self.free.insert(at, node.number);
            }
        }
    }
}

pub fn size(tree: &Tree) -> usize {
    tree.as_ref().map_or(0, |node| node.size)
}

pub fn lookup(tree: &Tree, key: u32) -> Option<u32> {
    let node = tree.as_ref()?;
    match key {
        key if key < node.key => lookup(&node.left, key),
        key if key > node.key => lookup(&node.right, key),
        _ => Some(node.value),
    }
}

fn weight(tree: &Tree) -> usize {
    size(tree) + 1
}

/// Lower nodes first, left before right, top last.
fn balanced(s: &mut Supply, key: u32, value: u32, left: Tree, right: Tree) -> Tree {
    if size(&left) + size(&right) < 2 {
        s.make(key, value, left, right)
    } else if weight(&right) > 3 * weight(&left) {
        rotate_left(s, key, value, left, &right.unwrap())
    } else if weight(&left) > 3 * weight(&right) {
        rotate_right(s, key, value, &left.unwrap(), right)
    } else {
        s.make(key, value, left, right)
    }
}

fn rotate_left(s: &mut Supply, key: u32, value: u32, left: Tree, right: &Node) -> Tree {
    s.apart(right);
    if weight(&right.left) < 2 * weight(&right.right) {
        let lower = s.make(key, value, left, right.left.clone());
        s.make(right.key, right.value, lower, right.right.clone())
    } else {
        let middle = right.left.as_ref().unwrap();
        s.apart(middle);
        let lower_left = s.make(key, value, left, middle.left.clone());
        let lower_right = s.make(right.key, right.value, middle.right.clone(), right.right.clone());
        s.make(middle.key, middle.value, lower_left, lower_right)
    }
}

fn rotate_right(s: &mut Supply, key: u32, value: u32, left: &Node, right: Tree) -> Tree {
    s.apart(left);
    if weight(&left.right) < 2 * weight(&left.left) {
        let lower = s.make(key, value, left.right.clone(), right);
        s.make(left.key, left.value, left.left.clone(), lower)
    } else {
        let middle = left.right.as_ref().unwrap();
        s.apart(middle);
        let lower_left = s.make(left.key, left.value, left.left.clone(), middle.left.clone());
        let lower_right = s.make(key, value, middle.right.clone(), right);
        s.make(middle.key, middle.value, lower_left, lower_right)
    }
}

pub fn insert(s: &mut Supply, tree: &Tree, key: u32, value: u32) -> Tree {
    let known = lookup(tree, key).is_some();
    insert_on_path(s, tree, key, value, known)
}

fn insert_on_path(s: &mut Supply, tree: &Tree, key: u32, value: u32, known: bool) -> Tree {
    let Some(node) = tree else {
        return s.make(key, value, None, None);
    };
    s.apart(node);
    if key == node.key {
        return s.make(key, value, node.left.clone(), node.right.clone());
    }
    let (left, right) = if key < node.key {
        (insert_on_path(s, &node.left, key, value, known), node.right.clone())
    } else {
        (node.left.clone(), insert_on_path(s, &node.right, key, value, known))
    };
    if known {
        s.make(node.key, node.value, left, right)
    } else {
        balanced(s, node.key, node.value, left, right)
    }
}

/// The minimum's key and value, and the tree without it.
fn remove_min(s: &mut Supply, node: &Node) -> (u32, u32, Tree) {
    s.apart(node);
    match &node.left {
        None => (node.key, node.value, node.right.clone()),
        Some(left) => {
            let (key, value, rest) = remove_min(s, left);
            (key, value, balanced(s, node.key, node.value, rest, node.right.clone()))
        }
    }
}

pub fn remove(s: &mut Supply, tree: &Tree, key: u32) -> Tree {
    if lookup(tree, key).is_none() {
        return tree.clone();
    }
    remove_existing(s, tree.as_ref().unwrap(), key)
}

fn remove_existing(s: &mut Supply, node: &Node, key: u32) -> Tree {
    s.apart(node);
    if key < node.key {
        let left = remove_existing(s, node.left.as_ref().unwrap(), key);
        return balanced(s, node.key, node.value, left, node.right.clone());
    }
    if key > node.key {
        let right = remove_existing(s, node.right.as_ref().unwrap(), key);
        return balanced(s, node.key, node.value, node.left.clone(), right);
    }
    match (&node.left, &node.right) {
        (only, None) | (None, only) => only.clone(),
        (Some(_), Some(right)) => {
            let (key, value, rest) = remove_min(s, right);
            balanced(s, key, value, node.left.clone(), rest)
        }
    }
}

/// By sizes, not weights.
fn join(s: &mut Supply, left: Tree, key: u32, value: u32, right: Tree) -> Tree {
    if size(&right) > 3 * size(&left) {
        let top = right.unwrap();
        s.apart(&top);
        let lower = join(s, left, key, value, top.left.clone());
        balanced(s, top.key, top.value, lower, top.right.clone())
    } else if size(&left) > 3 * size(&right) {
        let top = left.unwrap();
        s.apart(&top);
        let lower = join(s, top.right.clone(), key, value, right);
        balanced(s, top.key, top.value, top.left.clone(), lower)
    } else {
        balanced(s, key, value, left, right)
    }
}

fn join_without_key(s: &mut Supply, left: Tree, right: Tree) -> Tree {
    match (&left, &right) {
        (only, None) | (None, only) => only.clone(),
        (Some(_), Some(node)) => {
            let (key, value, rest) = remove_min(s, node);
            join(s, left, key, value, rest)
        }
    }
}

fn split(s: &mut Supply, tree: &Tree, key: u32) -> (Tree, Option<u32>, Tree) {
    let Some(node) = tree else {
        return (None, None, None);
    };
    s.apart(node);
    if key == node.key {
        (node.left.clone(), Some(node.value), node.right.clone())
    } else if key < node.key {
        let (before, found, after) = split(s, &node.left, key);
        (before, found, join(s, after, node.key, node.value, node.right.clone()))
    } else {
        let (before, found, after) = split(s, &node.right, key);
        (join(s, node.left.clone(), node.key, node.value, before), found, after)
    }
}

/// Whether every key of both trees has a sum that is a word.
pub fn sums_fit(left: &Tree, right: &Tree) -> bool {
    let Some(node) = left else { return true };
    let sum = node.value as u64 + lookup(right, node.key).unwrap_or(0) as u64;
    sum <= u32::MAX as u64 && sums_fit(&node.left, right) && sums_fit(&node.right, right)
}

pub fn merged(rule: u32, left: u32, right: u32) -> u32 {
    match rule {
        0 => left,
        1 => right,
        2 => left.min(right),
        3 => left.max(right),
        4 => left.checked_add(right).expect("the sums were checked"),
        _ => unreachable!("the rule was checked"),
    }
}

pub fn reduced(rule: u32, left: u32, right: u32) -> Option<u32> {
    match rule {
        0 => None,
        1 => (left != right).then_some(left),
        2 => Some(left),
        3 => (left > right).then(|| left - right),
        _ => unreachable!("the rule was checked"),
    }
}

pub fn union(s: &mut Supply, left: &Tree, right: &Tree, rule: u32) -> Tree {
    let (Some(l), Some(r)) = (left, right) else {
        return left.clone().or(right.clone());
    };
    if l.size >= r.size {
        s.apart(l);
        let (before, found, after) = split(s, right, l.key);
        let value = found.map_or(l.value, |other| merged(rule, l.value, other));
        let lower = union(s, &l.left, &before, rule);
        let upper = union(s, &l.right, &after, rule);
        join(s, lower, l.key, value, upper)
    } else {
        s.apart(r);
        let (before, found, after) = split(s, left, r.key);
        let value = found.map_or(r.value, |other| merged(rule, other, r.value));
        let lower = union(s, &before, &r.left, rule);
        let upper = union(s, &after, &r.right, rule);
        join(s, lower, r.key, value, upper)
    }
}

pub fn difference(s: &mut Supply, left: &Tree, right: &Tree, rule: u32, cancel: bool) -> Tree {
    let (Some(l), Some(r)) = (left, right) else {
        return left.clone();
    };
    if cancel && l.number == r.number {
        return None;
    }
    s.apart(l);
    let (before, found, after) = split(s, right, l.key);
    let lower = difference(s, &l.left, &before, rule, cancel);
    let upper = difference(s, &l.right, &after, rule, cancel);
    match found.map_or(Some(l.value), |other| reduced(rule, l.value, other)) {
        Some(value) => join(s, lower, l.key, value, upper),
        None => join_without_key(s, lower, upper),
    }
}
