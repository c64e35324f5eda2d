//! Hostile inputs: each makes one part of the work as large as it gets.

use oracle::{case::Rec, front::Forest, random::Rng};

use crate::inputs::{SEED, block, external, internal, joined, random_digest};

/// The nodes of a small forest that is copied, and the forests that the copies are spread over.
const SMALL: usize = 16;
const SPREAD: usize = 8;

/// The most nodes that may be open at once.
const DEEPEST: usize = 4_096;

/// Digests that only their last words tell apart.
fn last_only(number: usize) -> [u64; 4] {
    [7, 7, 7, (number as u64 + 1).wrapping_mul(0x9E37_79B9_7F4A_7C15) >> 1]
}

/// One copy of the small forest, its children counted from `base` on: two externals, of which one is replaced by
/// a block, six blocks, and eight internals above each other.
fn copy(base: u32, digests: &[[u64; 4]]) -> Vec<Rec> {
    let mut nodes = vec![external(digests[0]), external(digests[2])];
    nodes.extend(digests[2..8].iter().map(|&digest| block(digest)));
    for i in 8..SMALL as u32 {
        let children = [base + i - 8, base + i - 1];
        nodes.push(internal(&children, digests[i as usize]));
    }
    nodes
}

/// All duplicates: copies of one small forest, so that sixteen nodes come out whatever goes in.
pub fn copies(n: usize) -> Vec<Forest> {
    let mut random = Rng(SEED);
    let digests: Vec<[u64; 4]> = (0..SMALL).map(|_| random_digest(&mut random)).collect();
    let each = (n / SMALL).div_ceil(SPREAD);
    let mut forests = vec![];
    for _ in 0..SPREAD {
        let (mut nodes, mut roots) = (vec![], vec![]);
        for k in 0..each {
            nodes.extend(copy((k * SMALL) as u32, &digests));
            roots.push(nodes.len() as u32 - 1);
        }
        forests.push((nodes, roots));
    }
    forests
}

/// All digests equal but the last word; half of the externals are replaced by a block, and one root reaches all.
pub fn last_word(n: usize) -> Forest {
    let (externals, blocks) = (n / 10, 2 * n / 5);
    let mut digests: Vec<[u64; 4]> = (0..externals)
        .map(|i| last_only(if i < externals / 2 { externals + i } else { i }))
        .collect();
    digests.sort();
    let mut nodes: Vec<Rec> = digests.into_iter().map(external).collect();
    nodes.extend((externals..externals + blocks).map(|i| block(last_only(i))));
    let tops: Vec<u32> = (0..nodes.len() as u32).collect();
    let mut number = nodes.len();
    let top = joined(&mut nodes, &tops, &mut || {
        number += 1;
        last_only(number)
    });
    (nodes, vec![top])
}

/// Chains of as many nodes as may be open, each under its own root.
pub fn chains(n: usize) -> Forest {
    let mut random = Rng(SEED);
    let (mut nodes, mut roots) = (vec![], vec![]);
    while nodes.len() < n {
        let length = DEEPEST.min(n - nodes.len());
        nodes.push(block(random_digest(&mut random)));
        for _ in 1..length {
            let below = nodes.len() as u32 - 1;
            nodes.push(internal(&[below], random_digest(&mut random)));
        }
        roots.push(nodes.len() as u32 - 1);
    }
    (nodes, roots)
}

/// One digest for all internals, and no two of them with the same children.
pub fn one_digest(n: usize) -> Forest {
    let side = ((n as f64 / 2.0).sqrt() as u32).max(2) + 1;
    let mut nodes: Vec<Rec> = (0..side).map(|i| block([u64::from(i) + 1, 0, 0, 0])).collect();
    let leaves = (n as u32 - side) / 2;
    let mut tops = vec![];
    for i in 0..leaves {
        tops.push(nodes.len() as u32);
        nodes.push(internal(&[i % side, i / side], [7; 4]));
    }
    let top = joined(&mut nodes, &tops, &mut || [7; 4]);
    (nodes, vec![top])
}

/// One chain of internals, each above the next; the last is above the only block.
pub fn reverse_chain(n: usize) -> Forest {
    let mut random = Rng(SEED);
    let mut nodes: Vec<Rec> =
        (1..n as u32).map(|next| internal(&[next], random_digest(&mut random))).collect();
    nodes.push(block(random_digest(&mut random)));
    (nodes, vec![0])
}

/// Every internal names the only block twice.
pub fn one_block_twice(n: usize) -> Forest {
    let mut random = Rng(SEED);
    let mut nodes = vec![block(random_digest(&mut random))];
    nodes.extend((1..n).map(|_| internal(&[0, 0], random_digest(&mut random))));
    (nodes, vec![n as u32 - 1])
}

/// Internals without children: all are ready at once. A block behind them keeps the order from being the old one.
pub fn all_ready(n: usize) -> Forest {
    let mut random = Rng(SEED);
    let mut nodes: Vec<Rec> = (1..n).map(|_| internal(&[], random_digest(&mut random))).collect();
    nodes.push(block(random_digest(&mut random)));
    (nodes, vec![0])
}

/// All externals, the highest digest first.
pub fn falling_externals(n: usize) -> Forest {
    let nodes = (0..n).map(|i| external([7, 7, 7, (n - i) as u64])).collect();
    (nodes, vec![0])
}

/// All externals in order, told apart by their last words.
pub fn rising_externals(n: usize) -> Forest {
    let nodes = (0..n).map(|i| external([7, 7, 7, i as u64])).collect();
    (nodes, vec![0])
}
