//! The benchmark: the Rust text and our library on the same bytes, by turns, in one process.

use std::{
    process::exit,
    time::{Duration, Instant},
};

use oracle::{
    case::{Case, Op},
    mast::{MastNode, node},
};

mod answer;
mod hostile;
mod inputs;
mod measure;
mod memory;
mod ours;
mod rust;
mod share;
mod table;

#[global_allocator]
static ALLOCATOR: memory::Counting = memory::Counting;

const USAGE: &str = "usage:
  bench tables [--long] [--upto NODES] [CALL [INPUT]]   the tables; --long: our merge also at 200,000 and
                                         1,000,000 nodes, one run each
  bench share NODES                      the search's share of our merge's time
  bench inputs                           the names of the inputs
  bench nodes CALL INPUT NODES           how many nodes that input has: it may be a few more or less
  bench once SIDE CALL INPUT NODES       one call, for a counter of instructions
  bench repeat SIDE CALL INPUT NODES SECONDS   many calls, for a profiler
CALL is merge, canonicalize or validate; SIDE is ours, read or call (the Rust from bytes,
its call alone), or read-digest or call-digest with the digest as the fingerprint";

const SIZES: [usize; 5] = [1_000, 10_000, 40_000, 200_000, 1_000_000];
const HOSTILE_SIZES: [usize; 2] = [40_000, 200_000];

/// Our merge takes a time that grows with the square, so by default it ends here.
const SEARCHED: usize = 40_000;

struct Inputs {
    op: Op,
    usual: &'static [&'static str],
    hostile: &'static [&'static str],
}

const INPUTS: [Inputs; 3] = [
    Inputs {
        op: Op::Merge,
        usual: &["workload", "workload-shuffled", "workload-one-root", "copies"],
        hostile: &["last-word", "chains", "one-digest"],
    },
    Inputs {
        op: Op::Canonicalize,
        usual: &["dense", "dense-near", "random-order"],
        hostile: &[
            "last-word",
            "reverse-chain",
            "one-block-twice",
            "all-ready",
            "falling-externals",
        ],
    },
    Inputs {
        op: Op::Validate,
        usual: &["dense", "refused-late"],
        hostile: &["rising-externals"],
    },
];

/// What is asked of the tables.
struct Wanted {
    long: bool,
    upto: usize,
    call: Option<Op>,
    input: Option<String>,
}

impl Wanted {
    fn parse(words: &[&str]) -> Option<Wanted> {
        let mut wanted = Wanted { long: false, upto: usize::MAX, call: None, input: None };
        let mut rest = words.iter();
        while let Some(&word) = rest.next() {
            match word {
                "--long" => wanted.long = true,
                "--upto" => wanted.upto = rest.next()?.parse().ok()?,
                call if wanted.call.is_none() => wanted.call = Some(Op::parse(call)?.0),
                input => wanted.input = Some(input.into()),
            }
        }
        Some(wanted)
    }

    /// Whether it is asked for, and our merge of such an input ends soon enough.
    fn takes(&self, op: Op, name: &str, n: usize) -> bool {
        let quick = op != Op::Merge || name == "copies" || n <= SEARCHED;
        let slow = name == "workload" || (name == "workload-shuffled" && n < 1_000_000);
        let asked = n <= self.upto && self.input.as_ref().is_none_or(|input| input == name);
        asked && (quick || (self.long && slow))
    }
}

fn rows(inputs: &Inputs, names: &[&str], sizes: &[usize], wanted: &Wanted) -> Vec<measure::Row> {
    let mut rows = vec![];
    for name in names {
        for &n in sizes {
            if wanted.takes(inputs.op, name, n) {
                let case = inputs::make(inputs.op, name, n).expect("a known name");
                rows.push(measure::row(&case));
            }
        }
    }
    rows
}

/// Measures a call on all its inputs and prints what came out; the rows are for the goals.
fn print_call(inputs: &Inputs, wanted: &Wanted) -> Vec<measure::Row> {
    let call = inputs.op.word();
    let mut all = rows(inputs, inputs.usual, &SIZES, wanted);
    let usual = all.len();
    all.extend(rows(inputs, inputs.hostile, &HOSTILE_SIZES, wanted));
    println!("\n### {call}\n\nUsual inputs, ns a node:");
    table::print_times(&all[..usual]);
    println!("\nHostile inputs, ns a node:");
    table::print_times(&all[usual..]);
    if inputs.op == Op::Merge {
        println!("\nThe search set aside, ns a node:");
        table::print_search(&all);
    }
    println!("\nMemory, bytes a node:");
    table::print_memory(&all, size_of::<MastNode>());
    all
}

fn print_tables(wanted: Wanted) {
    println!(
        "Seed {}. A time is the best of the runs in its row, with the median in brackets.",
        inputs::SEED
    );
    let asked = INPUTS.iter().filter(|inputs| wanted.call.is_none_or(|call| call == inputs.op));
    let measured: Vec<_> =
        asked.map(|inputs| (inputs.op.word(), print_call(inputs, &wanted))).collect();
    println!("\n### goals");
    table::print_goals(&measured);
}

fn print_share(n: usize) {
    let case = inputs::make(Op::Merge, "workload", n).expect("a known name");
    let mut lent = ours::Lent::new(&case);
    let share = match measure::once(&case) {
        true => measure::sampled_once(&mut lent).1,
        false => measure::search_share(&mut lent),
    };
    match share {
        Some(share) => println!("time: {:.3} % of our merge's samples", 100.0 * share),
        None => println!("time: not known, perf does not work here"),
    }
}

fn print_inputs() {
    for inputs in &INPUTS {
        for name in inputs.usual.iter().chain(inputs.hostile) {
            println!("{} {name}", inputs.op.word());
        }
    }
}

fn print_nodes(case: Case) {
    println!("{}", case.nodes.len() / 48);
}

/// A side's call on an input, ready to be made again and again; it says its time.
fn caller<'a>(side: &str, case: &'a Case) -> Option<Box<dyn FnMut() -> u64 + 'a>> {
    Some(match side {
        "ours" => {
            let mut lent = ours::Lent::new(case);
            Box::new(move || lent.call().0)
        },
        "read" | "read-digest" => Box::new(|| rust::read_and_call(case).0),
        "call" | "call-digest" => {
            let held = rust::read(case);
            Box::new(move || rust::call(&held).0)
        },
        _ => return None,
    })
}

fn input(call: &str, name: &str, n: &str) -> Option<Case> {
    inputs::make(Op::parse(call)?.0, name, n.parse().ok()?)
}

/// One call, or calls for some seconds.
fn run(side: &str, call: &str, name: &str, n: &str, seconds: u64) -> Option<()> {
    let case = input(call, name, n)?;
    node::set_digest_only_fingerprint(side.ends_with("-digest"));
    let mut call = caller(side, &case)?;
    let begin = Instant::now();
    let mut times = vec![call()];
    while begin.elapsed() < Duration::from_secs(seconds) {
        times.push(call());
    }
    times.sort();
    let nodes = case.nodes.len() as f64 / 48.0;
    let (best, median) = (times[0] as f64 / nodes, times[times.len() / 2] as f64 / nodes);
    println!("{} calls, best {best:.2} ns a node, median {median:.2}", times.len());
    Some(())
}

fn main() {
    let args: Vec<String> = std::env::args().skip(1).collect();
    let words: Vec<&str> = args.iter().map(String::as_str).collect();
    let done = match words[..] {
        ["tables", ..] => Wanted::parse(&words[1..]).map(print_tables),
        ["share", n] => n.parse().ok().map(print_share),
        ["inputs"] => Some(print_inputs()),
        ["nodes", call, name, n] => input(call, name, n).map(print_nodes),
        ["once", side, call, name, n] => run(side, call, name, n, 0),
        ["repeat", side, call, name, n, seconds] => {
            seconds.parse().ok().and_then(|seconds| run(side, call, name, n, seconds))
        },
        _ => None,
    };
    if done.is_none() {
        eprintln!("{USAGE}");
        exit(2);
    }
}
