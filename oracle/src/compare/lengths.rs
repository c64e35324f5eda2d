//! Every combination of lengths around the right ones.

use crate::{
    case::{Case, Op},
    compare::{exhaustive::Look, lent::Lent},
    front::Lengths,
};

/// Cases of which the lengths are varied: accepted ones, and some that are refused later.
const BASES: [&str; 14] = [
    "- merge",
    "- merge :",
    "- merge B1 : 0",
    "- merge B1 B2 I3(1,0) : 2",
    "- merge E7 I3(0) : 1 | B7 :",
    "- merge I3(1) : 0",
    "- merge E7 I7(0) : 1",
    "- merge@1 B1 I2(0) : 1 1",
    "- merge I1k256() : 0 | B1 : 5",
    "- canonicalize",
    "- canonicalize B1 : 0",
    "- canonicalize I3(1,1) I4() : 0",
    "- canonicalize E7 E7 : 4",
    "- validate B1 I2(0)",
];

/// One element less, the same, one more; where there is nothing, only the last two.
fn around(length: usize) -> Vec<usize> {
    let least = length.saturating_sub(1);
    (least..=length + 1).collect()
}

/// All ways to take one entry of each list.
fn combinations(lists: &[Vec<usize>]) -> Vec<Vec<usize>> {
    let mut all = vec![vec![]];
    for list in lists {
        let longer = |c: &Vec<usize>| {
            let c = c.clone();
            list.iter().map(move |&x| [c.as_slice(), &[x]].concat()).collect::<Vec<_>>()
        };
        all = all.iter().flat_map(longer).collect();
    }
    all
}

/// The base with its buffers brought to these lengths; what is added is not 0.
fn resized(base: &Case, lengths: &[usize], limit: u64, prior: u64) -> Option<Lent> {
    let &[table, nodes, roots, node_out, root_out, ids, work] = lengths else { return None };
    let mut case = base.clone();
    case.limit = limit;
    case.table.resize(table, 1);
    case.nodes.resize(nodes, 1);
    case.roots.resize(roots * 4, 1);
    let room = Lengths { nodes: node_out, roots: root_out, ids, work };
    Some(Lent { case, room, prior })
}

/// The lengths to vary, by buffer; a buffer that the call does not take is not lent.
fn lengths_around(base: &Case) -> Vec<Vec<usize>> {
    let room = Lengths::enough(base);
    let read = [base.table.len(), base.nodes.len(), base.roots.len() / 4];
    let exact = read.into_iter().chain([room.nodes, room.roots, room.ids, room.work]);
    let first = if base.op == Op::Merge { 1 } else { 2 };
    let last = if base.op == Op::Validate { 2 } else { 7 };
    let taken = |i: usize| (first..=last).contains(&(i + 1));
    exact.enumerate().map(|(i, n)| if taken(i) { around(n) } else { vec![0] }).collect()
}

/// Each of the seven buffers one short, exact and one over, and for Merge a limit of 0, the good
/// one and 4,097: every combination.
pub fn all_lengths(look: Look, mut prior: u64) {
    for base in BASES.iter().filter_map(|b| Case::parse(b)) {
        let limits = if base.op == Op::Merge { vec![0, base.limit, 4097] } else { vec![1] };
        for lengths in combinations(&lengths_around(&base)) {
            for &limit in &limits {
                prior = prior.wrapping_add(1);
                resized(&base, &lengths, limit, prior).into_iter().for_each(&mut *look);
            }
        }
    }
}

/// Tables cut to every length from 0 to 24 bytes, over 0 to 3 nodes and 0 to 2 roots.
pub fn table_lengths(look: Look, mut prior: u64) {
    let Some(base) = Case::parse("- merge B1 : 0 | B2 I1(0) : | : 0") else { return };
    let mut long = base.clone();
    long.table.resize(24, 0);
    let all = combinations(&[(0..=24).collect(), (0..=3).collect(), (0..=2).collect()]);
    for lengths in all {
        let &[table, nodes, roots] = lengths.as_slice() else { continue };
        let mut case = long.clone();
        case.table.truncate(table);
        case.nodes.truncate(nodes * 48);
        case.roots.truncate(roots * 4);
        prior = prior.wrapping_add(1);
        look(Lent::enough(case, prior));
    }
}
