//! Where document 01 puts the words of a block.

#[derive(Clone, Copy)]
pub struct Block<'a>(pub &'a [u32]);

pub struct Node {
    pub key: u32,
    pub value: u32,
    pub left: u32,
    pub right: u32,
    pub size: u32,
    pub count: u32,
    pub sum: u64,
}

/// The words of a node: key, value, left, right, size, count, and the sum of the values below it, low and high.
pub const WIDTH: usize = 8;

/// The words of a block of N = n.
pub fn length(n: usize) -> usize {
    17 + n / 32 + WIDTH * n
}

/// The place of a node's first word.
pub fn place(n: usize, number: u32) -> usize {
    17 + n / 32 + WIDTH * (number as usize - 1)
}

/// The word and the bit that say whether a node is occupied.
pub fn mark(number: u32) -> (usize, u32) {
    let i = number as usize - 1;
    (17 + i / 32, 1 << (i % 32))
}

impl<'a> Block<'a> {
    pub fn n(self) -> usize {
        self.0[0] as usize
    }

    pub fn root(self, version: usize) -> u32 {
        self.0[1 + version]
    }

    pub fn occupied(self, number: u32) -> bool {
        let (word, bit) = mark(number);
        self.0[word] & bit != 0
    }

    pub fn node(self, number: u32) -> Node {
        let at = place(self.n(), number);
        let [key, value, left, right, size, count, low, high] = self.0[at..at + WIDTH].try_into().unwrap();
        Node { key, value, left, right, size, count, sum: low as u64 | (high as u64) << 32 }
    }
}
