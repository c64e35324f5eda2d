//! The oracle's own: a workload like a day's forests.
//!
//! A universe of nodes in modules of 20 to 400 nodes is made first, digests mixed from kind and child
//! digests (so equal digests mean equal structure, as in the crate). Each forest takes whole
//! modules from it; a child in another module, and now and then one in the same module, stands as
//! an external. Modules taken by several forests are the shared duplicates; externals whose node
//! some forest holds get replaced. Each forest is in dense order (the crate could hold it).

use std::collections::{HashMap, HashSet};

use crate::{Word, case::Rec, front::Forest, random::Rng};

fn mix(seed: u64, parts: &[u64]) -> [u64; 4] {
    let mut out = [0; 4];
    for (i, o) in out.iter_mut().enumerate() {
        let mut h = seed ^ (i as u64 + 1).wrapping_mul(0xA076_1D64_78BD_642F);
        for &p in parts {
            h = Rng(h ^ p).next();
        }
        *o = h >> 1; // below the Goldilocks modulus
    }
    out
}

#[derive(Clone, Copy)]
struct U {
    kind: u32,
    kids: [u32; 2],
    digest: [u64; 4],
    depth: u32,
}

/// Nodes in a module: small for a small job, so that forests hold several whole modules.
fn module_size(n: usize) -> usize {
    (n / 40).clamp(20, 400)
}

/// An edge may open two nodes (external and replacement): 2 * 100 < 256.
const DEPTH: u32 = 100;

/// A child for a node of the module that begins at `start`, by the nodes of it without a parent.
fn child(u: &[U], start: usize, free: &mut Vec<u32>, first: bool, r: &mut Rng) -> u32 {
    let mut pick = start + r.below((u.len() - start) as u64) as usize;
    if start > 0 && r.chance(1, 12) {
        pick = r.below(start as u64) as usize; // another module
    } else if !free.is_empty() && r.chance(9, 10) {
        // The first child often is the newest node (sequences), else any without a parent.
        let newest = first && r.chance(1, 2);
        let at = if newest { free.len() - 1 } else { r.below(free.len() as u64) as usize };
        pick = free[at] as usize;
    }
    if u[pick].depth >= DEPTH {
        pick = start; // a block
    }
    if let Some(at) = free.iter().rposition(|&f| f as usize == pick) {
        free.remove(at);
    }
    pick as u32
}

fn internal(u: &[U], kind: u32, kids: [u32; 2]) -> U {
    let depth = 1 + kids.iter().map(|&c| u[c as usize].depth).max().unwrap();
    let mut parts = vec![kind as u64];
    for &c in &kids {
        parts.extend(u[c as usize].digest);
    }
    U { kind, kids, digest: mix(2, &parts), depth }
}

fn universe(size: usize, module: usize, r: &mut Rng) -> Vec<U> {
    let mut u: Vec<U> = vec![];
    let mut made = HashSet::new();
    while u.len() < size {
        let start = u.len();
        let len = module.min(size - start).max(1);
        let blocks = (len * 2).div_ceil(5);
        let mut free: Vec<u32> = vec![];
        for k in 0..len {
            let here = u.len();
            if k < blocks {
                let digest = mix(1, &[here as u64, r.0]);
                u.push(U { kind: 1, kids: [0; 2], digest, depth: 1 });
            } else {
                let kids = [true, false].map(|first| child(&u, start, &mut free, first, r));
                let mut kind = 2 + r.below(4) as u32;
                while !made.insert((kind, kids)) {
                    kind += 1; // one universe node for each structure, so digests differ
                }
                u.push(internal(&u, kind, kids));
            }
            free.push(here as u32);
        }
    }
    u
}

struct Maker<'a> {
    u: &'a [U],
    // universe node -> how it stands in this forest
    node: HashMap<u32, usize>,
    ext: HashMap<u32, usize>,
    blocks: Vec<u32>,
    internals: Vec<(u32, [(bool, u32); 2])>, // children: (external?, universe node)
}

impl Maker<'_> {
    fn size(&self) -> usize {
        self.ext.len() + self.blocks.len() + self.internals.len()
    }
    fn module(&mut self, start: usize, end: usize, r: &mut Rng) {
        for i in start..end {
            let x = self.u[i];
            if self.node.contains_key(&(i as u32)) {
                continue;
            }
            self.node.insert(i as u32, 0);
            if x.kind == 1 {
                self.blocks.push(i as u32);
                continue;
            }
            let kids = x.kids.map(|c| {
                let inside = self.node.contains_key(&c) && !r.chance(1, 25);
                if !inside {
                    self.ext.insert(c, 0);
                }
                (!inside, c)
            });
            self.internals.push((i as u32, kids));
        }
    }
    fn finish(mut self, tops: &[u32]) -> Forest {
        let mut exts: Vec<u32> = self.ext.keys().copied().collect();
        exts.sort_by_key(|&e| Word(self.u[e as usize].digest));
        let mut recs = vec![];
        for e in exts {
            self.ext.insert(e, recs.len());
            let digest = self.u[e as usize].digest;
            recs.push(Rec { kind: 0, count: 0, child: [0; 2], digest });
        }
        for &b in &self.blocks {
            self.node.insert(b, recs.len());
            let digest = self.u[b as usize].digest;
            recs.push(Rec { kind: 1, count: 0, child: [0; 2], digest });
        }
        for (i, kids) in &self.internals {
            let child = kids.map(|(e, c)| {
                (if e { self.ext[&c] } else { self.node[&c] }) as u32
            });
            self.node.insert(*i, recs.len());
            let x = self.u[*i as usize];
            recs.push(Rec { kind: x.kind, count: 2, child, digest: x.digest });
        }
        let roots = tops.iter().map(|t| self.node[t] as u32).collect();
        (recs, roots)
    }
}

/// What was taken of a module: its length, and the internals that stood before.
struct Taken {
    start: usize,
    len: usize,
    before: usize,
}

impl Maker<'_> {
    /// Takes a prefix of a module, shortened until the forest has no more than `want` nodes: a
    /// prefix is closed under children in the module, but may want externals.
    fn take(&mut self, start: usize, len: usize, want: usize, r: &mut Rng) -> Taken {
        let before = (self.node.clone(), self.ext.clone(), self.blocks.len(), self.internals.len());
        let mut len = len;
        loop {
            self.module(start, start + len, r);
            if self.size() <= want {
                break;
            }
            self.node = before.0.clone();
            self.ext = before.1.clone();
            self.blocks.truncate(before.2);
            self.internals.truncate(before.3);
            len = len * 9 / 10;
            if len == 0 {
                break;
            }
        }
        Taken { start, len, before: before.3 }
    }

    /// The roots of what was taken: whatever no node of this forest names, and a few more.
    fn tops(&self, t: &Taken, r: &mut Rng) -> Vec<u32> {
        let range = t.start..t.start + t.len;
        let mut has_parent = vec![false; t.len];
        for &(external, c) in self.internals[t.before..].iter().flat_map(|(_, kids)| kids) {
            if !external && range.contains(&(c as usize)) {
                has_parent[c as usize - t.start] = true;
            }
        }
        let mut top = |i: &usize| {
            !has_parent[i - t.start] || (self.u[*i].kind != 1 && r.chance(1, 200))
        };
        range.filter(|i| top(i)).map(|i| i as u32).collect()
    }
}

/// A forest of about `want` nodes, of whole modules.
fn of_modules(u: &[U], module: usize, want: usize, r: &mut Rng) -> Forest {
    let modules = u.len().div_ceil(module);
    let mut m = Maker {
        u,
        node: HashMap::new(),
        ext: HashMap::new(),
        blocks: vec![],
        internals: vec![],
    };
    let mut tops = vec![];
    while m.size() < want {
        let k = r.below(modules as u64) as usize;
        let start = k * module;
        let full = ((k + 1) * module).min(u.len());
        if m.node.contains_key(&(start as u32)) {
            // Taken already: in a tiny universe nothing may be left.
            if m.node.len() >= u.len() || r.chance(1, 8) {
                break;
            }
            continue;
        }
        let len = (full - start).min(want - m.size());
        let taken = m.take(start, len, want, r);
        tops.extend(m.tops(&taken, r));
    }
    m.finish(&tops)
}

/// Fills a forest up to the exact number with blocks of its own, behind its blocks.
fn fill_up(forest: &mut Forest, want: usize, number: usize) {
    let (recs, roots) = forest;
    let miss = want - recs.len();
    if miss == 0 {
        return;
    }
    let at = recs.iter().position(|x| x.kind >= 2).unwrap_or(recs.len());
    let block = |k: usize| Rec {
        kind: 1,
        count: 0,
        child: [0; 2],
        digest: mix(3, &[number as u64, k as u64]),
    };
    recs.splice(at..at, (0..miss).map(block));
    let shift = |c: &mut u32| {
        if *c as usize >= at {
            *c += miss as u32;
        }
    };
    for x in recs.iter_mut() {
        x.child[..x.count as usize].iter_mut().for_each(shift);
    }
    roots.iter_mut().for_each(shift);
}

pub fn workload(n: usize, seed: u64) -> Vec<Forest> {
    let mut r = Rng(seed);
    let module = module_size(n);
    let u = universe((n * 11 / 20).max(1), module, &mut r);
    let nf = if n <= 10_000 { 8 } else if n <= 40_000 { 16 } else { 32 };
    let mut forests = vec![];
    let mut left = n;
    for f in 0..nf {
        let want = left / (nf - f);
        let mut forest = of_modules(&u, module, want, &mut r);
        fill_up(&mut forest, want, f);
        left -= forest.0.len();
        forests.push(forest);
    }
    // Any order of forests, so that replacements lie on both sides.
    for i in (1..forests.len()).rev() {
        forests.swap(i, r.below(i as u64 + 1) as usize);
    }
    forests
}
