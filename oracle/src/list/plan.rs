//! Which cases the list has: fixed ones, families, and random ones that each add something.

use std::collections::HashSet;

use super::{
    entry::{Entry, LIMIT},
    families,
};
use crate::{
    case::{Case, NONE, Op, Out, Reply},
    doc01,
    random::{Rng, random_case},
};

/// Cases of one call under one remark.
#[derive(Clone)]
pub struct Group {
    pub title: String,
    pub op: Op,
    pub entries: Vec<Entry>,
    /// Whether a case stays that the list already has under another name.
    pub keeps: bool,
}

impl Group {
    pub fn new(title: &str, op: Op, entries: Vec<Entry>) -> Group {
        Group { title: title.into(), op, entries, keeps: false }
    }
}

const FIXED: &str = include_str!("fixed.txt");
const SEED: u64 = 20_261_116;
/// How many random cases are looked at, and how many at most are kept of each call.
const DRAWN: usize = 60_000;
const KEPT: [(Op, usize); 3] = [(Op::Validate, 8), (Op::Canonicalize, 20), (Op::Merge, 110)];
/// The most nodes and forests of a random case.
const NODES: usize = 16;
const FORESTS: usize = 4;

/// The fixed cases: a remark begins a group, and so does a call.
fn fixed() -> Vec<Group> {
    let mut groups: Vec<Group> = vec![];
    let mut title = String::new();
    for line in FIXED.lines().map(str::trim).filter(|l| !l.is_empty()) {
        if let Some(remark) = line.strip_prefix("# ") {
            title = remark.into();
        } else if let Some(word) = line.strip_prefix("= ") {
            let (op, _) = Op::parse(word).expect("a call");
            groups.push(Group { keeps: true, ..Group::new(&title, op, vec![]) });
            title = "The same.".into();
        } else {
            let group = groups.last_mut().expect("a call before its cases");
            let entry = Entry::read(group.op, line);
            group.entries.push(entry.unwrap_or_else(|| panic!("unreadable: {line}")));
        }
    }
    groups
}

/// What a random case adds: call, reply, merged nodes, replaced externals, depth, joined nodes.
/// Merges in which nothing is replaced or joined are one kind.
type Kind = (&'static str, &'static str, usize, usize, usize, usize);

fn merged_kind(case: &Case, no: &'static str, out: &Out) -> Kind {
    let forests = case.forests().expect("a random case is whole");
    let (_, stats) = doc01::merge_stats(&forests, case.limit as usize);
    let reached = out.map.iter().filter(|&&m| m != NONE).count();
    let call = case.op.word();
    let joined = (reached - stats.replaced as usize) - out.nodes.len();
    let replaced = stats.replaced as usize;
    if replaced + joined == 0 {
        return (call, no, 0, 0, 0, 0);
    }
    (call, no, out.nodes.len(), replaced.min(4), stats.deepest.min(6), joined.min(3))
}

fn kind(case: &Case) -> Kind {
    let out = doc01::run(case);
    let Reply::No(no, first, second) = out.reply else {
        unreachable!("document 01 has no panic");
    };
    let call = case.op.word();
    let named = [first, second].map(|v| v.unwrap_or(0).min(8) as usize);
    match (case.op, no) {
        (Op::Merge, "0") => merged_kind(case, no, &out),
        (Op::Merge, "6" | "7" | "8") => {
            (call, no, named[0] / 2, named[1] / 4, 0, case.limit.min(4) as usize)
        },
        (_, "0") => (call, no, named[0], named[1].min(2), moved(&out), 0),
        _ => (call, no, named[0] / 2, named[1] / 4, 0, 0),
    }
}

/// How many ids Canonicalize changes, up to four.
fn moved(out: &Out) -> usize {
    out.map.iter().enumerate().filter(|&(i, &m)| i != m as usize).count().min(4)
}

fn usable(case: &Case) -> bool {
    let (rows, nodes) = (case.table.len() / 8, case.nodes.len() / 48);
    (1..=FORESTS).contains(&rows) && (1..=NODES).contains(&nodes)
}

fn entry(case: &Case, number: usize) -> Entry {
    Entry {
        name: format!("random {}{number}", &case.op.word()[..1]),
        op: case.op,
        forests: case.forests().expect("a random case is whole"),
        limit: if case.limit == 4096 { LIMIT } else { case.limit as u32 },
        lengths: None,
        rows: None,
    }
}

/// Random cases of a call by a fixed seed: the first of each kind.
fn random(op: Op, most: usize) -> Group {
    let mut rng = Rng(SEED);
    let mut seen = HashSet::new();
    let mut kept = vec![];
    for _ in 0..DRAWN {
        let case = random_case(&mut rng, String::new());
        if case.op == op && usable(&case) && kept.len() < most && seen.insert(kind(&case)) {
            kept.push(entry(&case, kept.len() + 1));
        }
    }
    Group::new("Random cases: the first of each kind.", op, kept)
}

pub fn all() -> Vec<Group> {
    [fixed(), families::all(), KEPT.map(|(op, most)| random(op, most)).into()].concat()
}
