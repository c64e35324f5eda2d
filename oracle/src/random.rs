//! The oracle's own: a source of random numbers, and random cases.

use crate::{
    case::{Case, Op, Rec},
    front::Forest,
};

pub struct Rng(pub u64);

impl Rng {
    pub fn next(&mut self) -> u64 {
        self.0 = self.0.wrapping_add(0x9E37_79B9_7F4A_7C15);
        let mut z = self.0;
        z = (z ^ (z >> 30)).wrapping_mul(0xBF58_476D_1CE4_E5B9);
        z = (z ^ (z >> 27)).wrapping_mul(0x94D0_49BB_1331_11EB);
        z ^ (z >> 31)
    }
    pub fn below(&mut self, n: u64) -> u64 {
        self.next() % n
    }
    pub fn chance(&mut self, num: u64, den: u64) -> bool {
        self.below(den) < num
    }
}

fn digest(r: &mut Rng, spread: u64) -> [u64; 4] {
    let mut d = [0; 4];
    d[0] = r.below(spread);
    if r.chance(1, 12) {
        d[r.below(4) as usize] = r.below(3);
    }
    d
}

/// What the forests of a random case have in common.
struct Manner {
    /// Children below their own number, all in range.
    tidy: bool,
    /// Numbers out of range now and then.
    wild: bool,
    spread: u64,
    size: u64,
}

/// Node i of n.
fn node(r: &mut Rng, m: &Manner, i: u64, n: u64) -> Rec {
    let kind = match r.below(10) {
        0..=2 => 0,
        3..=4 => 1,
        5..=8 => 2,
        _ => 3 + r.below(3) as u32,
    };
    let mut child = [0; 2];
    let mut count = 0;
    if kind >= 2 {
        count = r.below(3) as u32;
        if m.tidy && i == 0 {
            count = 0;
        }
        for c in child.iter_mut().take(count as usize) {
            *c = if m.tidy {
                r.below(i) as u32
            } else if m.wild && r.chance(1, 8) {
                (n + r.below(3)) as u32
            } else {
                r.below(n) as u32
            };
        }
    }
    Rec { kind, count, child, digest: digest(r, m.spread) }
}

fn forest(r: &mut Rng, m: &Manner) -> Forest {
    let n = r.below(m.size + 1);
    let recs = (0..n).map(|i| node(r, m, i, n)).collect();
    let mut roots = vec![];
    for _ in 0..r.below(5) {
        if n > 0 && !(m.wild && r.chance(1, 10)) {
            roots.push(r.below(n) as u32);
        } else if m.wild {
            roots.push((n + r.below(3)) as u32);
        }
    }
    (recs, roots)
}

pub fn random_case(r: &mut Rng, name: String) -> Case {
    let op = match r.below(10) {
        0 => Op::Validate,
        1 | 2 => Op::Canonicalize,
        3 => Op::CanonicalizeParts,
        _ => Op::Merge,
    };
    let nf = if op == Op::Merge { r.below(5) } else { 1 };
    let tidy = r.chance(2, 3);
    let wild = r.chance(1, 4);
    let spread = 1 + r.below(12);
    let most = if r.chance(1, 10) { 30 } else { 8 };
    let manner = Manner { tidy, wild, spread, size: 1 + r.below(most) };
    let fs: Vec<Forest> = (0..nf).map(|_| forest(r, &manner)).collect();
    let limit = if r.chance(1, 5) { 1 + r.below(6) } else { 4096 };
    Case::from_forests(&name, op, limit, &fs)
}
