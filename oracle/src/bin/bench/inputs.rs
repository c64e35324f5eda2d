//! The inputs by name: usual ones here, hostile ones in hostile.rs. All are made from one seed.

use oracle::{
    case::{Case, Op, Rec},
    front::Forest,
    random::Rng,
    workload,
};

use crate::hostile;

pub const SEED: u64 = 1;

/// The highest depth limit, so that no input is refused for its depth.
const LIMIT: u64 = 4_096;

pub fn random_digest(random: &mut Rng) -> [u64; 4] {
    [0; 4].map(|_: u64| random.next() >> 1)
}

pub fn external(digest: [u64; 4]) -> Rec {
    Rec { kind: 0, count: 0, child: [0; 2], digest }
}

pub fn block(digest: [u64; 4]) -> Rec {
    Rec { kind: 1, count: 0, child: [0; 2], digest }
}

pub fn internal(children: &[u32], digest: [u64; 4]) -> Rec {
    let mut child = [0; 2];
    child[..children.len()].copy_from_slice(children);
    Rec { kind: 2, count: children.len() as u32, child, digest }
}

/// The same forest with its nodes in random order.
pub fn shuffled((nodes, roots): &Forest, random: &mut Rng) -> Forest {
    let mut to: Vec<u32> = (0..nodes.len() as u32).collect();
    for k in (1..to.len()).rev() {
        to.swap(k, random.below(k as u64 + 1) as usize);
    }
    let mut moved = nodes.clone();
    for (old, node) in nodes.iter().enumerate() {
        let mut node = *node;
        for child in &mut node.child[..node.count as usize] {
            *child = to[*child as usize];
        }
        moved[to[old] as usize] = node;
    }
    (moved, roots.iter().map(|&root| to[root as usize]).collect())
}

/// Internals over all tops, two by two, so that one root reaches what many did.
pub fn joined(nodes: &mut Vec<Rec>, tops: &[u32], digest: &mut dyn FnMut() -> [u64; 4]) -> u32 {
    let mut level = tops.to_vec();
    while level.len() > 1 {
        let mut above = vec![];
        for pair in level.chunks(2) {
            if pair.len() == 1 {
                above.push(pair[0]);
                continue;
            }
            above.push(nodes.len() as u32);
            nodes.push(internal(pair, digest()));
        }
        level = above;
    }
    level[0]
}

/// The workload with one root a forest: what is left of it is without the search among roots.
fn one_root(n: usize) -> Vec<Forest> {
    let mut random = Rng(SEED);
    let mut forests = workload::workload(n, SEED);
    for (nodes, roots) in &mut forests {
        if roots.len() > 1 {
            let top = joined(nodes, roots, &mut || random_digest(&mut random));
            *roots = vec![top];
        }
    }
    forests
}

/// One forest in canonical order: a tenth externals, four tenths blocks, internals over any two nodes before.
pub fn dense(n: usize) -> Forest {
    let mut random = Rng(SEED);
    let mut externals: Vec<[u64; 4]> = (0..n / 10).map(|_| random_digest(&mut random)).collect();
    externals.sort();
    let mut nodes: Vec<Rec> = externals.into_iter().map(external).collect();
    for _ in 0..2 * n / 5 {
        nodes.push(block(random_digest(&mut random)));
    }
    while nodes.len() < n {
        let below = nodes.len() as u64;
        let children = [random.below(below) as u32, random.below(below) as u32];
        nodes.push(internal(&children, random_digest(&mut random)));
    }
    let roots = (0..n / 20).map(|_| random.below(n as u64) as u32).collect();
    (nodes, roots)
}

/// The same with children close by: a node shortly before, and a block at the same part of the blocks.
fn dense_near(n: usize) -> Forest {
    const NEAR: u64 = 200;
    let mut random = Rng(SEED);
    let (mut nodes, roots) = dense(n);
    let (blocks, begin) = (2 * n / 5, n / 10 + 2 * n / 5);
    for i in begin..n {
        let before = i as u64 - 1 - random.below(NEAR.min(i as u64));
        let part = (i - begin) * blocks / (n - begin);
        let block = n / 10 + (part + random.below(NEAR) as usize).min(blocks - 1);
        nodes[i].child = [before as u32, block as u32];
    }
    (nodes, roots)
}

/// The last node names itself, so all others are looked at first.
fn refused_late(n: usize) -> Forest {
    let (mut nodes, roots) = dense(n);
    nodes[n - 1].child[1] = n as u32 - 1;
    (nodes, roots)
}

fn merge_forests(name: &str, n: usize) -> Option<Vec<Forest>> {
    let mut random = Rng(SEED);
    Some(match name {
        "workload" => workload::workload(n, SEED),
        "workload-shuffled" => {
            let forests = workload::workload(n, SEED);
            forests.iter().map(|forest| shuffled(forest, &mut random)).collect()
        },
        "workload-one-root" => one_root(n),
        "copies" => hostile::copies(n),
        "last-word" => vec![hostile::last_word(n)],
        "chains" => vec![hostile::chains(n)],
        "one-digest" => vec![hostile::one_digest(n)],
        _ => return None,
    })
}

fn one_forest(op: Op, name: &str, n: usize) -> Option<Forest> {
    let mut random = Rng(SEED);
    Some(match (op, name) {
        (_, "dense") => dense(n),
        (Op::Validate, "refused-late") => refused_late(n),
        (Op::Validate, "rising-externals") => hostile::rising_externals(n),
        (Op::Canonicalize, "dense-near") => dense_near(n),
        (Op::Canonicalize, "random-order") => shuffled(&dense(n), &mut random),
        (Op::Canonicalize, "last-word") => shuffled(&hostile::last_word(n), &mut random),
        (Op::Canonicalize, "reverse-chain") => hostile::reverse_chain(n),
        (Op::Canonicalize, "one-block-twice") => hostile::one_block_twice(n),
        (Op::Canonicalize, "all-ready") => hostile::all_ready(n),
        (Op::Canonicalize, "falling-externals") => hostile::falling_externals(n),
        _ => return None,
    })
}

/// The input of that name for that call, with n nodes or a few more.
pub fn make(op: Op, name: &str, n: usize) -> Option<Case> {
    let forests = match op {
        Op::Merge => merge_forests(name, n)?,
        _ => vec![one_forest(op, name, n)?],
    };
    Some(Case::from_forests(name, op, LIMIT, &forests))
}
