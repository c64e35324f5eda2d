//! Sizes, digests, kinds and rooms around each boundary, and random cases.

use crate::{
    case::{Case, Op, Rec},
    compare::{exhaustive::Look, lent::Lent},
    front::{Forest, Lengths},
    random::{Rng, random_case},
    workload::workload,
};

fn rec(kind: u32, children: &[u32], digest: [u64; 4]) -> Rec {
    let mut child = [0; 2];
    child.iter_mut().zip(children).for_each(|(c, &given)| *c = given);
    Rec { kind, count: children.len() as u32, child, digest }
}

/// The nodes and roots under new numbers: old node `i` becomes `to[i]`.
fn renumbered((nodes, roots): &Forest, to: &[u32]) -> Forest {
    let mut out = nodes.clone();
    for (old, node) in nodes.iter().enumerate() {
        let mut node = *node;
        let count = node.count as usize;
        node.child[..count].iter_mut().for_each(|c| *c = to[*c as usize]);
        out[to[old] as usize] = node;
    }
    (out, roots.iter().map(|&r| to[r as usize]).collect())
}

fn shuffled(n: usize, r: &mut Rng) -> Vec<u32> {
    let mut to: Vec<u32> = (0..n as u32).collect();
    (1..n).rev().for_each(|k| to.swap(k, r.below(k as u64 + 1) as usize));
    to
}

/// A chain of `n` nodes, the root on top; if `replaced`, every other step is a replacement.
fn chain(n: u32, replaced: bool) -> Forest {
    let node = |i: u32| match i {
        0 => rec(1, &[], [0; 4]),
        i if replaced && i % 2 == 1 => rec(0, &[], [i as u64 - 1, 0, 0, 0]),
        i => rec(2, &[i - 1], [i as u64, 0, 0, 0]),
    };
    ((0..n).map(node).collect(), n.checked_sub(1).into_iter().collect())
}

/// The same chain with its pairs of external and internal in two forests by turns.
fn chain_in_two(n: u32) -> Vec<Forest> {
    let (nodes, _) = chain(n, true);
    let mut forests = vec![(vec![], vec![]), (vec![], vec![])];
    for (i, mut node) in nodes.into_iter().enumerate() {
        let own: &mut Forest = &mut forests[i.div_ceil(2) % 2];
        node.child[0] = (own.0.len() as u32).saturating_sub(1) * node.count;
        own.0.push(node);
    }
    if let Some(top) = n.checked_sub(1) {
        let own = &mut forests[(top as usize).div_ceil(2) % 2];
        own.1.push(own.0.len() as u32 - 1);
    }
    forests
}

/// Chains of one node less than the limit, as many, and one more.
pub fn chains(look: Look, seed: u64) {
    let mut r = Rng(seed);
    let limits = (1..=10).chain(255..=257).chain([4095, 4096]);
    for (limit, n) in limits.flat_map(|l| (l - 1..=l + 1).map(move |n| (l as u64, n))) {
        let plain = chain(n, false);
        let replaced = chain(n, true);
        let turned: Vec<u32> = (0..n).rev().collect();
        let mixed = shuffled(n as usize, &mut r);
        let forms = [
            vec![renumbered(&plain, &turned)],
            vec![renumbered(&replaced, &turned)],
            vec![renumbered(&replaced, &mixed)],
            vec![plain],
            vec![replaced],
            chain_in_two(n),
        ];
        for forests in &forms {
            look(Lent::enough(Case::from_forests("", Op::Merge, limit, forests), r.next()));
        }
        for one in forms.iter().filter(|f| f.len() == 1) {
            look(Lent::enough(Case::from_forests("", Op::Canonicalize, 1, one), r.next()));
        }
    }
}

/// A forest of `n` nodes whose children come before them. Some externals share the digest of an
/// earlier node, of any forest if `pool` holds one.
fn tidy(n: usize, pool: &mut Vec<[u64; 4]>, r: &mut Rng) -> Forest {
    let mut nodes = vec![];
    for i in 0..n as u64 {
        let known = !pool.is_empty() && r.chance(1, 4);
        let digest = match known {
            true => pool[r.below(pool.len() as u64) as usize],
            false => [r.next(), r.below(2), 0, i],
        };
        let count = if i == 0 { 0 } else { r.below(3) };
        let children: Vec<u32> = (0..count).map(|_| r.below(i) as u32).collect();
        let node = match r.below(4) {
            0 => rec(0, &[], digest),
            1 => rec(1, &[], digest),
            _ => rec(2 + r.below(254) as u32, &children, [r.next(), 0, 0, i]),
        };
        pool.push(node.digest);
        nodes.push(node);
    }
    let most = if n == 0 { 0 } else { r.below(6) };
    let roots = (0..most).map(|_| r.below(n as u64) as u32).collect();
    (nodes, roots)
}

/// Sizes 2^k - 1, 2^k and 2^k + 1 up to 2^12, as they stand and shuffled, in one to five forests.
pub fn powers(look: Look, seed: u64) {
    let mut r = Rng(seed);
    for n in (0..=12).flat_map(|k| (1usize << k) - 1..=(1 << k) + 1) {
        let repeats = if n > 600 { 2 } else { 20 };
        for _ in 0..repeats {
            let one = tidy(n, &mut vec![], &mut r);
            let mixed = renumbered(&one, &shuffled(n, &mut r));
            for (op, f) in [
                (Op::Validate, &one),
                (Op::Canonicalize, &one),
                (Op::Canonicalize, &mixed),
                (Op::Merge, &mixed),
            ] {
                let case = Case::from_forests("", op, 4096, std::slice::from_ref(f));
                look(Lent::enough(case, r.next()));
            }
            let case = Case::from_forests("", Op::Merge, 4096, &parted(n, &mut r));
            look(Lent::enough(case, r.next()));
            let spoiled = [spoiled(one, &mut r)];
            for op in [Op::Canonicalize, Op::Merge] {
                look(Lent::enough(Case::from_forests("", op, 4096, &spoiled), r.next()));
            }
        }
    }
}

/// With one child number replaced by any up to one past the end: often a cycle.
fn spoiled((mut nodes, roots): Forest, r: &mut Rng) -> Forest {
    let n = nodes.len() as u64;
    let at = r.below(n.max(1)) as usize;
    if let Some(node) = nodes.iter_mut().skip(at).find(|node| node.count > 0) {
        node.child[0] = r.below(n + 1) as u32;
    }
    (nodes, roots)
}

/// `n` nodes in two to five forests that share digests, each shuffled.
fn parted(n: usize, r: &mut Rng) -> Vec<Forest> {
    let count = 2 + r.below(4) as usize;
    let mut pool = vec![];
    let part = |i: usize| n * (i + 1) / count - n * i / count;
    (0..count)
        .map(|i| {
            let forest = tidy(part(i), &mut pool, r);
            renumbered(&forest, &shuffled(part(i), r))
        })
        .collect()
}

/// Inputs like a day's forests, of 60 to 2,000 nodes, as they stand and shuffled.
pub fn days(look: Look, seed: u64) {
    let mut r = Rng(seed);
    for _ in 0..60 {
        let n = 60 + r.below(1_940) as usize;
        let plain = workload(n, r.next());
        let mix = |f: &Forest, r: &mut Rng| renumbered(f, &shuffled(f.0.len(), r));
        let mixed: Vec<Forest> = plain.iter().map(|f| mix(f, &mut r)).collect();
        for forests in [&plain, &mixed] {
            look(Lent::enough(Case::from_forests("", Op::Merge, 4096, forests), r.next()));
        }
        for forest in mixed {
            let case = Case::from_forests("", Op::Canonicalize, 1, &[forest]);
            look(Lent::enough(case, r.next()));
        }
    }
}

/// 1,023 to 1,025 forests: empty ones, of one block and root each, with a part of a row behind.
pub fn many_forests(look: Look, seed: u64) {
    let mut r = Rng(seed);
    for count in 1023..=1025 {
        let empty = vec![(vec![], vec![]); count];
        let block = |i: usize| (vec![rec(1, &[], [i as u64 % 7, 0, 0, 0])], vec![0]);
        let external = |i: usize| (vec![rec(0, &[], [i as u64 % 9, 0, 0, 0])], vec![0]);
        let blocks: Vec<Forest> = (0..count).map(block).collect();
        let mixed: Vec<Forest> =
            (0..count).map(|i| if i % 2 == 0 { block(i) } else { external(i) }).collect();
        for forests in [empty, blocks, mixed] {
            for more in [0, 1, 7] {
                let mut case = Case::from_forests("", Op::Merge, 4096, &forests);
                case.table.resize(case.table.len() + more, 1);
                look(Lent::enough(case, r.next()));
            }
        }
    }
}

const WORDS: [u64; 9] = [
    0,
    1,
    (1 << 32) - 1,
    1 << 32,
    (1 << 63) - 1,
    1 << 63,
    (1 << 63) + 1,
    u64::MAX - 1,
    u64::MAX,
];

/// Random cases whose digests are one of a few, which differ in one word, by boundary numbers.
pub fn digests(look: Look, seed: u64, count: u64) {
    let mut r = Rng(seed);
    for _ in 0..count {
        let any = |r: &mut Rng| WORDS[r.below(9) as usize];
        let base = [any(&mut r), any(&mut r), any(&mut r), any(&mut r)];
        let few: Vec<[u64; 4]> = (0..5)
            .map(|_| {
                let mut d = base;
                d[r.below(4) as usize] = any(&mut r);
                d
            })
            .collect();
        let mut case = random_case(&mut r, String::new());
        for record in case.nodes.chunks_exact_mut(48) {
            let digest = few[r.below(few.len() as u64) as usize];
            let bytes = digest.map(u64::to_le_bytes).concat();
            record[16..].copy_from_slice(&bytes);
        }
        look(Lent::enough(case, r.next()));
    }
}

/// Kinds and counts at their bounds with child fields of 0 to 2, alone and behind a good record.
pub fn kinds(look: Look, seed: u64) {
    let mut r = Rng(seed);
    let fields = || (0..3u32).flat_map(|a| (0..3u32).map(move |b| [a, b]));
    for kind in [0, 1, 2, 3, 254, 255, 256, u32::MAX] {
        for count in [0, 1, 2, 3, u32::MAX] {
            for child in fields() {
                let odd = Rec { kind, count, child, digest: [7, 0, 0, 0] };
                odd_record(look, odd, &mut r);
            }
        }
    }
}

fn odd_record(look: Look, odd: Rec, r: &mut Rng) {
    let good = rec(1, &[], [7, 0, 0, 0]);
    for nodes in [vec![odd], vec![good, odd], vec![odd, good]] {
        for op in [Op::Validate, Op::Canonicalize, Op::Merge] {
            for roots in [vec![], vec![0], vec![nodes.len() as u32 - 1]] {
                let case = Case::from_forests("", op, 4, &[(nodes.clone(), roots)]);
                look(Lent::enough(case, r.next()));
            }
        }
    }
}

/// Merges with every node output from nothing to a record and a byte more than the input, by
/// bytes, and every root output from nothing to one more.
pub fn rooms(look: Look, seed: u64) {
    let mut r = Rng(seed);
    for _ in 0..60 {
        let forests = parted(r.below(7) as usize, &mut r);
        let case = Case::from_forests("", Op::Merge, 4, &forests);
        let enough = Lengths::enough(&case);
        for nodes in 0..=enough.nodes + 49 {
            for roots in 0..=enough.roots + 1 {
                let room = Lengths { nodes, roots, ..enough };
                look(Lent { case: case.clone(), room, prior: r.next() });
            }
        }
    }
}

/// Random small cases, some with lengths or a limit that are off.
pub fn random(look: Look, seed: u64, count: u64) {
    let mut r = Rng(seed);
    for _ in 0..count {
        let case = random_case(&mut r, String::new());
        let mut lent = Lent::enough(case, r.next());
        if r.chance(1, 4) {
            loosened(&mut lent, &mut r);
        }
        look(lent);
    }
}

/// Another room or limit: outputs of any length up to more than enough, now and then a wrong list.
pub fn loosened(lent: &mut Lent, r: &mut Rng) {
    let room = &mut lent.room;
    let near = |n: usize, r: &mut Rng| (n + r.below(3) as usize).saturating_sub(1);
    match r.below(8) {
        0 => room.ids = near(room.ids, r),
        1 => room.work = near(room.work, r),
        2 => room.work += r.below(40) as usize,
        3 => lent.case.limit = [0, 1, 4096, 4097, u32::MAX as u64][r.below(5) as usize],
        4 => room.roots = near(room.roots, r),
        _ => {
            room.nodes = r.below(room.nodes as u64 + 50) as usize;
            room.roots = r.below(room.roots as u64 + 2) as usize;
        },
    }
    if lent.case.op == Op::Validate {
        *room = Lengths::enough(&lent.case);
    }
}
