//! Short inputs, all of them.

use crate::{
    case::{Case, Op, Rec},
    compare::lent::Lent,
    front::Forest,
};

/// Where a family hands its cases.
pub type Look<'a> = &'a mut dyn FnMut(Lent);

const LIMITS: [u64; 3] = [1, 2, 3];
const DIGESTS: [u64; 2] = [0, 1];

/// All records of a forest of `n` nodes: E, B, I without, with one and with two children, the
/// children up to one past the end.
fn records(n: u32) -> Vec<Rec> {
    let mut all = vec![];
    for d in DIGESTS {
        let rec = |kind, count, child| Rec { kind, count, child, digest: [d, 0, 0, 0] };
        all.extend([rec(0, 0, [0, 0]), rec(1, 0, [0, 0]), rec(2, 0, [0, 0])]);
        all.extend((0..=n).map(|a| rec(2, 1, [a, 0])));
        let pairs = (0..=n).flat_map(|a| (0..=n).map(move |b| [a, b]));
        all.extend(pairs.map(|child| rec(2, 2, child)));
    }
    all
}

/// All lists of `n` records.
fn node_lists(n: u32) -> impl Iterator<Item = Vec<Rec>> {
    let all = records(n);
    let count = all.len().pow(n);
    (0..count).map(move |mut i| {
        let mut digit = || {
            let r = all[i % all.len()];
            i /= all.len();
            r
        };
        (0..n).map(|_| digit()).collect()
    })
}

/// All lists of up to `most` roots of a forest of `n` nodes, up to one past the end.
fn root_lists(n: u32, most: usize) -> Vec<Vec<u32>> {
    let mut lists = vec![vec![]];
    let mut from = 0;
    for _ in 0..most {
        let to = lists.len();
        for i in from..to {
            let longer = |r| [lists[i].as_slice(), &[r]].concat();
            let mut longer: Vec<Vec<u32>> = (0..=n).map(longer).collect();
            lists.append(&mut longer);
        }
        from = to;
    }
    lists
}

fn single_forests(n: u32, most_roots: usize) -> impl Iterator<Item = Forest> {
    let roots = root_lists(n, most_roots);
    node_lists(n).flat_map(move |nodes| {
        roots.clone().into_iter().map(move |roots| (nodes.clone(), roots))
    })
}

/// Hands on a call on forests; what the outputs hold beforehand changes from case to case.
struct Calls<'a> {
    look: Look<'a>,
    prior: u64,
}

impl Calls<'_> {
    fn call(&mut self, op: Op, limit: u64, forests: &[Forest]) {
        self.prior = self.prior.wrapping_add(1);
        let case = Case::from_forests("", op, limit, forests);
        (self.look)(Lent::enough(case, self.prior));
    }

    fn merges(&mut self, forests: &[Forest]) {
        LIMITS.iter().for_each(|&limit| self.call(Op::Merge, limit, forests));
    }
}

/// Every forest of 0 to 2 nodes with up to 2 roots: Merge with limits 1 to 3, Canonicalize, and
/// Validate once for each list of nodes.
pub fn up_to_two_nodes(look: Look, prior: u64) {
    let mut calls = Calls { look, prior };
    for n in 0..=2 {
        for nodes in node_lists(n) {
            calls.call(Op::Validate, 1, &[(nodes, vec![])]);
        }
        for forest in single_forests(n, 2) {
            let forest = [forest];
            calls.merges(&forest);
            calls.call(Op::Canonicalize, 1, &forest);
            calls.call(Op::CanonicalizeParts, 1, &forest);
        }
    }
}

/// Every pair of forests of 0 or 1 node with up to 2 roots each: Merge with limits 1 to 3.
pub fn pairs(look: Look, prior: u64) {
    let mut calls = Calls { look, prior };
    let small: Vec<Forest> = (0..=1).flat_map(|n| single_forests(n, 2)).collect();
    for a in &small {
        for b in &small {
            calls.merges(&[a.clone(), b.clone()]);
        }
    }
}

/// Every list of 3 nodes: Validate.
pub fn three_validated(look: Look, prior: u64) {
    let mut calls = Calls { look, prior };
    for nodes in node_lists(3) {
        calls.call(Op::Validate, 1, &[(nodes, vec![])]);
    }
}

/// Every forest of 3 nodes with no or one root: Canonicalize.
pub fn three_canonicalized(look: Look, prior: u64) {
    let mut calls = Calls { look, prior };
    for forest in single_forests(3, 1) {
        calls.call(Op::Canonicalize, 1, &[forest]);
    }
}

/// Every forest of 3 nodes with no or one root: Merge with limits 1 to 3.
pub fn three_merged(look: Look, prior: u64) {
    let mut calls = Calls { look, prior };
    for forest in single_forests(3, 1) {
        calls.merges(&[forest]);
    }
}
