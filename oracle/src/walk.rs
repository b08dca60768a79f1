//! 001's loop on numbered trees, with the 64 places of document 01, the delta of two versions, and the question whether there is one.

use crate::rules::{size, Node, Tree};

/// A walk put more than 64 pending items on one side.
pub struct TooDeep;

enum Pending<'a> {
    Tree(&'a Node),
    Entry(u32, u32),
}

use Pending::{Entry, Tree as Branch};

fn side(tree: &Tree) -> Vec<Pending<'_>> {
    tree.as_deref().map(Branch).into_iter().collect()
}

fn open(side: &mut Vec<Pending>, most: &mut usize) -> Result<(), TooDeep> {
    let Some(Branch(node)) = side.pop() else { unreachable!("only trees are opened") };
    side.extend(node.right.as_deref().map(Branch));
    side.push(Entry(node.key, node.value));
    side.extend(node.left.as_deref().map(Branch));
    *most = side.len().max(*most);
    if side.len() > 64 {
        Err(TooDeep)
    } else {
        Ok(())
    }
}

/// Key, left value, 1 if common, right value or 0.
pub type Row = [u32; 4];

/// A walk that goes no further than it is asked to, and the most items that it has had pending on one side; what comes after an
/// overflow means nothing.
pub struct Walk<'a> {
    left: Vec<Pending<'a>>,
    right: Vec<Pending<'a>>,
    most: usize,
}

impl Walk<'_> {
    /// The next row, or none at the end.
    fn row(&mut self) -> Result<Option<Row>, TooDeep> {
        let Walk { left, right, most } = self;
        while let Some(first) = left.last() {
            match (first, right.last()) {
                (Branch(l), Some(Branch(r))) if l.number == r.number => {
                    left.pop();
                    right.pop();
                }
                (Branch(l), Some(Branch(r))) if l.size < r.size => open(right, most)?,
                (Branch(_), _) => open(left, most)?,
                (Entry(..), Some(Branch(_))) => open(right, most)?,
                (&Entry(key, value), Some(&Entry(other, beside))) if key == other => {
                    left.pop();
                    right.pop();
                    return Ok(Some([key, value, 1, beside]));
                }
                (&Entry(key, _), Some(&Entry(other, _))) if key > other => {
                    right.pop();
                }
                (&Entry(key, value), _) => {
                    left.pop();
                    return Ok(Some([key, value, 0, 0]));
                }
            }
        }
        Ok(None)
    }
}

impl Iterator for Walk<'_> {
    type Item = Result<Row, TooDeep>;

    fn next(&mut self) -> Option<Self::Item> {
        self.row().transpose()
    }
}

pub fn walk<'a>(left: &'a Tree, right: &'a Tree) -> Walk<'a> {
    let (left, right) = (side(left), side(right));
    let most = left.len().max(right.len());
    Walk { left, right, most }
}

/// The most items that the whole walk has pending on one side.
pub fn pending(left: &Tree, right: &Tree) -> Result<usize, TooDeep> {
    let mut walk = walk(left, right);
    while walk.row()?.is_some() {}
    Ok(walk.most)
}

pub fn rows(left: &Tree, right: &Tree) -> Result<Vec<Row>, TooDeep> {
    walk(left, right).collect()
}

/// A key that the right side has not, or has with another value.
fn is_put(row: &Row) -> bool {
    row[2] == 0 || row[1] != row[3]
}

#[derive(Clone, Copy, PartialEq, Eq, Debug)]
pub enum Change {
    Put(u32, u32),
    Remove(u32),
}

/// Puts, then removes, both ascending.
pub fn delta(from: &Tree, to: &Tree) -> Result<Vec<Change>, TooDeep> {
    let puts = rows(to, from)?;
    let removes = rows(from, to)?;
    let puts = puts.iter().filter(|row| is_put(row)).map(|row| Change::Put(row[0], row[1]));
    let removes = removes.iter().filter(|row| row[2] == 0).map(|row| Change::Remove(row[0]));
    Ok(puts.chain(removes).collect())
}

/// The first put of the delta, found by a walk that stops there: what would overflow later does not count.
pub fn first_put(from: &Tree, to: &Tree) -> Result<Option<Row>, TooDeep> {
    walk(to, from).find(|row| row.as_ref().map_or(true, is_put)).transpose()
}

/// Whether both hold the same entries (#110). Without a put all of `to` stands in `from`, so that sizes tell the rest.
pub fn same(from: &Tree, to: &Tree) -> Result<bool, TooDeep> {
    Ok(first_put(from, to)?.is_none() && size(from) == size(to))
}
