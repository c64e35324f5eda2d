//! The oracle's own: what no Rust type can be given is answered here, by document 01's numbers and
//! in its order (Merge 13, 2, 1, 3; the others 2, 1, 3). The one place of these checks.

use crate::case::{Case, MAX_NODES, Op, Rec};

const NODE: u64 = 48;
const ROW: usize = 8;
const WORD: u64 = 4;
const MOST_FORESTS: usize = 1024;
const MOST_LIMIT: u64 = 4096;
const WORK_WORDS: u64 = 16;

pub type Forest = (Vec<Rec>, Vec<u32>);

/// A reply: number, first, second.
pub type Refused = (u32, u64, u64);

/// How much room is lent: bytes of node output, words of root output, id list and work room.
#[derive(Debug, Clone, Copy, PartialEq, Eq)]
pub struct Lengths {
    pub nodes: usize,
    pub roots: usize,
    pub ids: usize,
    pub work: usize,
}

impl Lengths {
    /// Room for any result of this input. Validate is lent none.
    pub fn enough(case: &Case) -> Lengths {
        if case.op == Op::Validate {
            return Lengths { nodes: 0, roots: 0, ids: 0, work: 0 };
        }
        let count = case.nodes.len() / NODE as usize;
        Lengths {
            nodes: case.nodes.len(),
            roots: case.roots.len() / WORD as usize,
            ids: count,
            work: count * WORK_WORDS as usize,
        }
    }
}

/// The counts that everything else is held against.
struct Sums {
    nodes: u64,
    roots: u64,
}

/// All checks: the forests, or the refusal that comes before the Rust is asked.
pub fn front(case: &Case, room: &Lengths) -> Result<Vec<Forest>, Refused> {
    let merge = case.op == Op::Merge;
    if merge && !(1..=MOST_LIMIT).contains(&case.limit) {
        return Err((13, 0, 0));
    }
    if merge && case.table.len() / ROW > MOST_FORESTS {
        return Err((2, 0, 0));
    }
    let rows = rows(case);
    let sums = sums(&rows)?;
    // Input buffers have the lower numbers, so they are named first.
    match wrong_input(case, &sums).or_else(|| wrong_room(case, &sums, room)) {
        Some(buffer) => Err((1, buffer, 0)),
        None => split(case, &rows),
    }
}

/// The checks of what is read, without limit, number of forests and lent room.
pub fn typed(case: &Case) -> Result<Vec<Forest>, Refused> {
    let rows = rows(case);
    let sums = sums(&rows)?;
    match wrong_input(case, &sums) {
        Some(buffer) => Err((1, buffer, 0)),
        None => split(case, &rows),
    }
}

pub fn word(bytes: &[u8]) -> u32 {
    bytes.iter().rev().fold(0, |high, &b| high << 8 | b as u32)
}

/// Node and root count of each forest: the table's whole rows, or what is there without a table.
fn rows(case: &Case) -> Vec<(u64, u64)> {
    if case.op != Op::Merge {
        return vec![(case.nodes.len() as u64 / NODE, case.roots.len() as u64 / WORD)];
    }
    let row = |r: &[u8]| (word(&r[..4]) as u64, word(&r[4..]) as u64);
    case.table.chunks_exact(ROW).map(row).collect()
}

fn sums(rows: &[(u64, u64)]) -> Result<Sums, Refused> {
    let nodes = rows.iter().map(|r| r.0).sum();
    let roots = rows.iter().map(|r| r.1).sum();
    if nodes > MAX_NODES || roots > MAX_NODES {
        return Err((2, 0, 0));
    }
    Ok(Sums { nodes, roots })
}

fn lowest(checks: &[(u64, bool)]) -> Option<u64> {
    checks.iter().find(|c| c.1).map(|c| c.0)
}

fn wrong_input(case: &Case, sums: &Sums) -> Option<u64> {
    lowest(&[
        (1, case.op == Op::Merge && case.table.len() % ROW != 0),
        (2, case.nodes.len() as u64 != sums.nodes * NODE),
        (3, case.op != Op::Validate && case.roots.len() as u64 != sums.roots * WORD),
    ])
}

fn wrong_room(case: &Case, sums: &Sums, room: &Lengths) -> Option<u64> {
    let like_input = matches!(case.op, Op::Canonicalize | Op::CanonicalizeParts);
    let lends = case.op != Op::Validate;
    lowest(&[
        (4, like_input && room.nodes as u64 != sums.nodes * NODE),
        (5, like_input && room.roots as u64 != sums.roots),
        (6, lends && room.ids as u64 != sums.nodes),
        (7, lends && (room.work as u64) < sums.nodes * WORK_WORDS),
    ])
}

/// The records and roots of each forest; a bad record is refused.
fn split(case: &Case, rows: &[(u64, u64)]) -> Result<Vec<Forest>, Refused> {
    let recs: Vec<Rec> = case.nodes.chunks_exact(NODE as usize).map(Rec::read).collect();
    if let Some(position) = recs.iter().position(Rec::bad) {
        return Err((3, position as u64, 0));
    }
    let roots: Vec<u32> = case.roots.chunks_exact(WORD as usize).map(word).collect();
    let (mut recs, mut roots) = (recs.as_slice(), roots.as_slice());
    let mut forests = Vec::with_capacity(rows.len());
    for &(n, r) in rows {
        let (own, rest) = recs.split_at(n as usize);
        let (own_roots, rest_roots) = roots.split_at(r as usize);
        forests.push((own.to_vec(), own_roots.to_vec()));
        (recs, roots) = (rest, rest_roots);
    }
    Ok(forests)
}
