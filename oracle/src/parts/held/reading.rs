//! What the words say, read plainly: shape, soundness with the sums, a version's entries and its minutes.

use super::block::{length, stored, word, Entry, COUNT, KEY, LEFT, RIGHT, SIZE, VALUE};

fn shaped(words: &[u32]) -> bool {
    let n = words.first().map_or(0, |&n| n as usize);
    n % 32 == 0 && (32..=4096).contains(&n) && words.len() == length(n)
}

fn occupied(words: &[u32], number: u32) -> bool {
    let at = number as usize - 1;
    words[17 + at / 32] >> (at % 32) & 1 == 1
}

fn named(words: &[u32], link: u32) -> bool {
    link == 0 || link <= words[0] && occupied(words, link)
}

/// The occupied nodes by growing size, a child before its parents, if roots, links, free nodes and sizes are in order.
pub fn by_size(words: &[u32]) -> Option<Vec<u32>> {
    let (mut nodes, mut fine) = (vec![], words[1..17].iter().all(|&root| named(words, root)));
    for number in 1..=words[0] {
        if occupied(words, number) {
            nodes.push(number);
        } else {
            fine &= (0..8).all(|which| word(words, number, which) == 0);
        }
    }
    fine &= nodes.iter().all(|&number| {
        let links = [LEFT, RIGHT].map(|side| word(words, number, side));
        links.iter().all(|&link| named(words, link)) && word(words, number, SIZE) as u64 == 1 + sizes(words, links)
    });
    nodes.sort_by_key(|&number| word(words, number, SIZE));
    fine.then_some(nodes)
}

fn sizes(words: &[u32], links: [u32; 2]) -> u64 {
    links.iter().filter(|&&link| link != 0).map(|&link| word(words, link, SIZE) as u64).sum()
}

/// A subtree's least and greatest key and the true sum of its values.
#[derive(Clone, Copy)]
struct Below {
    least: u32,
    most: u32,
    sum: u128,
}

/// Keys ascend, and each node's two words are the true sum of its subtree's values.
fn ordered_and_summed(words: &[u32], by_size: &[u32]) -> bool {
    let mut below: Vec<Option<Below>> = vec![None; words[0] as usize + 1];
    by_size.iter().all(|&number| {
        let key = word(words, number, KEY);
        let [left, right] = [LEFT, RIGHT].map(|side| below[word(words, number, side) as usize]);
        let of_children = left.map_or(0, |left| left.sum) + right.map_or(0, |right| right.sum);
        let sum = word(words, number, VALUE) as u128 + of_children;
        let (least, most) = (left.map_or(key, |left| left.least), right.map_or(key, |right| right.most));
        below[number as usize] = Some(Below { least, most, sum });
        left.is_none_or(|left| left.most < key)
            && right.is_none_or(|right| key < right.least)
            && stored(words, number) as u128 == sum
    })
}

fn counted(words: &[u32], nodes: &[u32]) -> bool {
    let mut names = vec![0; words[0] as usize + 1];
    let links = nodes.iter().flat_map(|&number| [LEFT, RIGHT].map(|side| word(words, number, side)));
    words[1..17].iter().copied().chain(links).for_each(|link| names[link as usize] += 1);
    nodes.iter().all(|&number| names[number as usize] >= 1 && word(words, number, COUNT) == names[number as usize])
}

/// 1 SHAPE, 2 DAMAGED, else 0.
pub fn check(words: &[u32]) -> u32 {
    if !shaped(words) {
        return 1;
    }
    match by_size(words) {
        Some(nodes) if ordered_and_summed(words, &nodes) && counted(words, &nodes) => 0,
        _ => 2,
    }
}

/// The number for a question about one version: SHAPE, DAMAGED, then 3 VERSION.
pub fn answer(checked: u32, version: u32) -> u32 {
    if checked == 0 && version > 15 {
        3
    } else {
        checked
    }
}

fn gather(words: &[u32], link: u32, entries: &mut Vec<Entry>) {
    if link != 0 {
        gather(words, word(words, link, LEFT), entries);
        entries.push((word(words, link, KEY), word(words, link, VALUE)));
        gather(words, word(words, link, RIGHT), entries);
    }
}

/// A version's entries, ascending, in a sound block.
pub fn entries(words: &[u32], version: u32) -> Vec<Entry> {
    let mut entries = vec![];
    gather(words, words[1 + version as usize], &mut entries);
    entries
}

/// The nodes on the longest way down.
pub fn height(words: &[u32], link: u32) -> usize {
    if link == 0 {
        0
    } else {
        1 + height(words, word(words, link, LEFT)).max(height(words, word(words, link, RIGHT)))
    }
}

/// The sum of the values from the first key to the last, both included; without ends, of all.
pub fn minutes(entries: &[Entry], ends: Option<(u32, u32)>) -> u128 {
    let inside = |key: u32| ends.is_none_or(|(first, last)| first <= key && key <= last);
    entries.iter().filter(|&&(key, _)| inside(key)).map(|&(_, value)| value as u128).sum()
}
