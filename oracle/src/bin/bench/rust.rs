//! The Rust's side. What is timed is the Rust's text; reading, copying and dropping stand apart.

use std::{hint::black_box, time::Instant};

use oracle::{
    Word,
    case::{Case, NONE, Op, Rec},
    mast::{
        self, Arranged, MastForest, MastForestError, MastForestRootMap, MastNode, MastNodeId, Ready,
        node::{BasicBlockNode, ExternalNode, InternalNode},
    },
    utils::IndexVec,
};

use crate::answer::{Answer, root_words};

type Merged = Result<(MastForest, MastForestRootMap), MastForestError>;
type Nodes = IndexVec<MastNodeId, MastNode>;

/// An input as the Rust holds it.
pub enum Held {
    Forests(Vec<MastForest>),
    Parts(Vec<MastNode>, Vec<u32>),
    Nodes(Nodes),
}

/// A result as the Rust gives it.
pub enum Outcome {
    Merge(Merged),
    Canonicalize(Result<Arranged, MastForestError>),
    Validate(Result<(), MastForestError>),
}

/// The node of a record that is good: its fields stand at known places, so nothing is looked up twice.
#[inline(always)]
fn read_node(record: &[u8; 48]) -> Option<MastNode> {
    let word = |at: usize| u32::from_le_bytes([0, 1, 2, 3].map(|i| record[at + i]));
    let long = |at: usize| u64::from(word(at)) | u64::from(word(at + 4)) << 32;
    let (kind, count, children) = (word(0), word(4), [word(8), word(12)]);
    let digest = Word([long(16), long(24), long(32), long(40)]);
    let most = if kind < 2 { 0 } else { 2 };
    let unused = (count < 1 && children[0] != 0) || (count < 2 && children[1] != 0);
    if kind > 255 || count > most || unused {
        return None;
    }
    Some(match kind {
        0 => MastNode::External(ExternalNode { digest }),
        1 => MastNode::Block(BasicBlockNode { digest }),
        _ => {
            let children = children.map(MastNodeId::new_unchecked);
            MastNode::Internal(InternalNode { kind, count, children, digest })
        },
    })
}

/// The reader: one pass, one allocation, each record looked at as ours does.
fn read_nodes(bytes: &[u8]) -> Vec<MastNode> {
    let records = bytes.chunks_exact(48).map(|record| record.try_into().expect("48 bytes"));
    let mut nodes = Vec::with_capacity(bytes.len() / 48);
    nodes.extend(records.map(|record| read_node(record).expect("a good record")));
    nodes
}

fn read_forests(case: &Case) -> Vec<MastForest> {
    let (mut nodes, mut roots) = (&case.nodes[..], &case.roots[..]);
    let mut forests = Vec::with_capacity(case.table.len() / 8);
    for row in case.table.chunks_exact(8) {
        let count = |at: usize| u32::from_le_bytes(row[at..at + 4].try_into().unwrap()) as usize;
        let (own, others) = nodes.split_at(48 * count(0));
        let (starts, later) = roots.split_at(4 * count(4));
        forests.push(mast::oracle_forest(read_nodes(own), &root_words(starts)));
        (nodes, roots) = (others, later);
    }
    forests
}

pub fn read(case: &Case) -> Held {
    match case.op {
        Op::Merge => Held::Forests(read_forests(case)),
        Op::Validate => Held::Nodes(IndexVec::from_vec(read_nodes(&case.nodes))),
        _ => Held::Parts(read_nodes(&case.nodes), root_words(&case.roots)),
    }
}

// These six are not inlined, so that callgrind finds them by name.

#[inline(never)]
pub fn rust_merge_call(forests: &[MastForest]) -> Merged {
    MastForest::merge(black_box(forests))
}

#[inline(never)]
pub fn rust_canonicalize_call(parts: Ready) -> Result<Arranged, MastForestError> {
    mast::oracle_canonicalize_ready(black_box(parts))
}

#[inline(never)]
pub fn rust_validate_call(nodes: &Nodes) -> Result<(), MastForestError> {
    mast::oracle_validate_ready(black_box(nodes))
}

/// The inputs come back too, so that dropping them is not in the time.
#[inline(never)]
pub fn rust_merge_read(case: &Case) -> (Merged, Vec<MastForest>) {
    let forests = read_forests(black_box(case));
    (MastForest::merge(&forests), forests)
}

#[inline(never)]
pub fn rust_canonicalize_read(case: &Case) -> Result<Arranged, MastForestError> {
    let case = black_box(case);
    let parts = mast::oracle_ready(read_nodes(&case.nodes), &root_words(&case.roots));
    mast::oracle_canonicalize_ready(parts)
}

#[inline(never)]
pub fn rust_validate_read(case: &Case) -> (Result<(), MastForestError>, Nodes) {
    let nodes = IndexVec::from_vec(read_nodes(&black_box(case).nodes));
    (mast::oracle_validate_ready(&nodes), nodes)
}

fn timed<T>(call: impl FnOnce() -> T) -> (u64, T) {
    let begin = Instant::now();
    let result = black_box(call());
    (begin.elapsed().as_nanos() as u64, result)
}

/// The call alone, on an input that stands ready.
pub fn call(held: &Held) -> (u64, Outcome) {
    match held {
        Held::Forests(forests) => {
            let (time, merged) = timed(|| rust_merge_call(forests));
            (time, Outcome::Merge(merged))
        },
        Held::Parts(nodes, roots) => {
            let parts = mast::oracle_ready(nodes.clone(), roots);
            let (time, arranged) = timed(|| rust_canonicalize_call(parts));
            (time, Outcome::Canonicalize(arranged))
        },
        Held::Nodes(nodes) => {
            let (time, valid) = timed(|| rust_validate_call(nodes));
            (time, Outcome::Validate(valid))
        },
    }
}

/// Reading the bytes and the call.
pub fn read_and_call(case: &Case) -> (u64, Outcome) {
    match case.op {
        Op::Merge => {
            let (time, (merged, _)) = timed(|| rust_merge_read(case));
            (time, Outcome::Merge(merged))
        },
        Op::Validate => {
            let (time, (valid, _)) = timed(|| rust_validate_read(case));
            (time, Outcome::Validate(valid))
        },
        _ => {
            let (time, arranged) = timed(|| rust_canonicalize_read(case));
            (time, Outcome::Canonicalize(arranged))
        },
    }
}

fn bytes(nodes: &[MastNode]) -> Vec<u8> {
    let mut out = Vec::with_capacity(48 * nodes.len());
    nodes.iter().for_each(|node| Rec::from_node(node).write(&mut out));
    out
}

/// The id list as ours gives it, forest after forest.
fn ids(case: &Case, map: &MastForestRootMap) -> Vec<u32> {
    let mut ids = Vec::with_capacity(case.nodes.len() / 48);
    for (forest, row) in case.table.chunks_exact(8).enumerate() {
        for node in 0..u32::from_le_bytes(row[..4].try_into().unwrap()) {
            let new = map.map_node(forest, &MastNodeId::new_unchecked(node));
            ids.push(new.map_or(NONE, u32::from));
        }
    }
    ids
}

fn refusal(error: MastForestError) -> Answer {
    match error {
        MastForestError::ForwardReference(node, child) => {
            Answer::refused(12, u32::from(node).into(), u32::from(child).into())
        },
        other => panic!("no input of the benchmark is refused so: {other}"),
    }
}

impl Outcome {
    /// The result in the form in which the two sides are compared.
    pub fn answer(self, case: &Case) -> Answer {
        match self {
            Outcome::Merge(Ok((forest, map))) => {
                let roots = forest.procedure_roots().iter().map(|&root| root.into()).collect();
                Answer::accepted(bytes(forest.nodes()), roots, ids(case, &map))
            },
            Outcome::Canonicalize(Ok(arranged)) => {
                let canon = arranged.canon();
                let ids = canon.map.iter().map(|id| id.unwrap_or(NONE)).collect();
                Answer::accepted(bytes(&canon.nodes), canon.roots, ids)
            },
            Outcome::Validate(Ok(())) => Answer::valid(case.nodes.len() / 48),
            Outcome::Merge(Err(error)) => refusal(error),
            Outcome::Canonicalize(Err(error)) | Outcome::Validate(Err(error)) => refusal(error),
        }
    }
}
