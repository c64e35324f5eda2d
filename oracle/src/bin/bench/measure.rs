//! One input measured: the two sides compared, then timed by turns, then the memory of each.

use std::{
    hint::black_box,
    time::{Duration, Instant},
};

use forest_merge::Reply;
use oracle::{
    case::{Case, Op},
    mast::{MastNodeId, node},
};

use crate::{
    answer::{Answer, root_words},
    memory,
    ours::Lent,
    rust::{self, Held},
    share,
};

/// The time that the rounds of one input may take together, and the least and the most rounds.
const BUDGET: u64 = 3_000_000_000;
const LEAST: u64 = 5;
const MOST: u64 = 201;

/// How long our calls are sampled for the share of the search.
const SAMPLED: Duration = Duration::from_secs(8);

/// Nanoseconds of a call.
#[derive(Clone, Copy)]
pub struct Times {
    pub best: f64,
    pub median: f64,
}

pub struct Row {
    pub name: String,
    pub nodes: usize,
    pub roots: usize,
    pub rounds: String,
    pub ours: Times,
    pub read: Times,
    pub call: Times,
    pub lent: usize,
    pub peak: usize,
    pub result: u64,
    pub merge: Option<Merge>,
}

/// What only a merge has: the Rust's quicker fingerprint, the time of its search among roots, our search's share.
pub struct Merge {
    pub fingerprint: &'static str,
    pub root_search: f64,
    pub share: Option<f64>,
}

impl Times {
    fn of(mut all: Vec<u64>, clock: u64) -> Times {
        all.sort();
        let net = |time: u64| time.saturating_sub(clock) as f64;
        Times { best: net(all[0]), median: net(all[all.len() / 2]) }
    }
}

/// What a look at the clock costs: it is taken off every time.
fn clock() -> u64 {
    let look = |_| Instant::now().elapsed().as_nanos() as u64;
    (0..1_000).map(look).min().unwrap_or(0)
}

fn best_of_three(held: &Held) -> u64 {
    (0..3).map(|_| rust::call(held).0).min().unwrap_or(0)
}

/// Sets the quicker of the stand-in's two fingerprints, if both give one result; interned is the one of our rules.
fn set_fingerprint(case: &Case, held: &Held) -> &'static str {
    node::set_digest_only_fingerprint(false);
    let interned = rust::call(held).1.answer(case);
    let interned_time = best_of_three(held);
    node::set_digest_only_fingerprint(true);
    let digest = rust::call(held).1.answer(case);
    if interned.difference(&digest).is_none() && best_of_three(held) < interned_time {
        return "digest";
    }
    node::set_digest_only_fingerprint(false);
    "interned"
}

/// The stand-in's mark_root on the roots of this result, alone.
fn root_search(case: &Case, answer: &Answer) -> f64 {
    let (mut roots, mut base, mut new) = (root_words(&case.roots).into_iter(), 0, vec![]);
    for row in case.table.chunks_exact(8) {
        let count = |at: usize| u32::from_le_bytes(row[at..at + 4].try_into().unwrap()) as usize;
        for root in roots.by_ref().take(count(4)) {
            new.push(MastNodeId::new_unchecked(answer.ids[base + root as usize]));
        }
        base += count(0);
    }
    let begin = Instant::now();
    let mut listed: Vec<MastNodeId> = vec![];
    for id in new {
        if !listed.contains(&id) {
            listed.push(id);
        }
    }
    black_box(listed);
    begin.elapsed().as_nanos() as f64
}

/// Stops the benchmark where the two sides give different results.
fn compare(case: &Case, ours: &Answer, other: Answer, reading: &str) {
    if let Some(what) = ours.difference(&other) {
        eprintln!("bench: {} on {}: {what} differ, Rust {reading}", case.op.word(), case.name);
        std::process::exit(1);
    }
}

/// Whether our merge takes so long here that one run must do.
pub fn once(case: &Case) -> bool {
    case.op == Op::Merge && case.nodes.len() / 48 >= 100_000 && case.name != "copies"
}

/// The share of the search, from calls that are not timed.
pub fn search_share(lent: &mut Lent) -> Option<f64> {
    let calls = || {
        let begin = Instant::now();
        while begin.elapsed() < SAMPLED {
            lent.call();
        }
    };
    share::sampled(share::FINE, calls).1
}

/// The one run of a long merge, timed and sampled at once.
pub fn sampled_once(lent: &mut Lent) -> ((u64, Reply), Option<f64>) {
    let rate = if lent.nodes() < 500_000 { share::FINE } else { share::COARSE };
    share::sampled(rate, || lent.call())
}

fn peak(case: &Case) -> usize {
    let call = |ready: Held| match ready {
        Held::Forests(forests) => drop(rust::rust_merge_call(&forests)),
        Held::Nodes(nodes) => drop(rust::rust_validate_call(&nodes)),
        Held::Parts(nodes, roots) => {
            drop(rust::rust_canonicalize_call(oracle::mast::oracle_ready(nodes, &roots)))
        },
    };
    memory::peak(|| rust::read(case), call)
}

/// The times of rounds in which each side has its turn; ours only if it was not timed before.
fn rounds(case: &Case, lent: &mut Lent, held: &Held, known: Option<u64>) -> (u64, [Times; 3]) {
    let clock = clock();
    let mut turn = || {
        let ours = known.unwrap_or_else(|| lent.call().0);
        [ours, rust::read_and_call(case).0, rust::call(held).0]
    };
    let first = turn();
    let spent: u64 = first.iter().sum::<u64>() - known.unwrap_or(0);
    let count = (BUDGET / spent.max(1)).clamp(LEAST, MOST);
    let all: Vec<[u64; 3]> = (0..count).map(|_| turn()).collect();
    let side = |k: usize| Times::of(all.iter().map(|times| times[k]).collect(), clock);
    (count, [side(0), side(1), side(2)])
}

pub fn row(case: &Case) -> Row {
    let nodes = case.nodes.len() / 48;
    eprintln!("bench: {} on {}, {nodes} nodes", case.op.word(), case.name);
    let held = rust::read(case);
    let merge = case.op == Op::Merge;
    let fingerprint = if merge { set_fingerprint(case, &held) } else { "" };
    let mut lent = Lent::new(case);
    let long = once(case);
    let ((time, reply), mut share) =
        if long { sampled_once(&mut lent) } else { (lent.call(), None) };
    let answer = lent.answer(reply);
    compare(case, &answer, rust::call(&held).1.answer(case), "call alone");
    compare(case, &answer, rust::read_and_call(case).1.answer(case), "from bytes");
    let (count, [ours, read, call]) = rounds(case, &mut lent, &held, long.then_some(time));
    if merge && !long {
        share = search_share(&mut lent);
    }
    let root_search = if merge { root_search(case, &answer) } else { 0.0 };
    let row = Row {
        name: case.name.clone(),
        nodes,
        roots: case.roots.len() / 4,
        rounds: if long { format!("1 and {count}") } else { count.to_string() },
        ours,
        read,
        call,
        lent: lent.bytes(),
        peak: peak(case),
        result: answer.first,
        merge: merge.then_some(Merge { fingerprint, root_search, share }),
    };
    node::set_digest_only_fingerprint(false);
    row
}
