//! The Rust text and our library on the same bytes, every result compared. README.md says more.

use std::process::ExitCode;

use oracle::{
    compare::{damage, exhaustive, judge::Judge, kinds, lengths, lent::Lent, sizes, tally::Tally},
    engine, guard,
};

const USAGE: &str = "compare [--cases N] [--seed S] [--only WORD] [--kinds FILE] [--children]
  --cases N     random and damaged cases beside the fixed families (default 600000)
  --seed S      where the random numbers start (default 1)
  --only WORD   only families whose name has the word
  --kinds FILE  the page with the table of kinds (default docs/DIFFERENCES.md)
  --children    every run of the Rust in a child process, not only where a root reaches a cycle
status 0: no unnamed difference; 1: some; 2: trouble";

const PAGE: &str = concat!(env!("CARGO_MANIFEST_DIR"), "/../docs/DIFFERENCES.md");

struct Options {
    cases: u64,
    seed: u64,
    only: String,
    kinds: String,
    children: bool,
}

fn options() -> Option<Options> {
    let mut o = Options {
        cases: 600_000,
        seed: 1,
        only: String::new(),
        kinds: PAGE.into(),
        children: false,
    };
    let mut words = std::env::args().skip(1);
    while let Some(word) = words.next() {
        match word.as_str() {
            "--cases" => o.cases = words.next()?.parse().ok()?,
            "--seed" => o.seed = words.next()?.parse().ok()?,
            "--only" => o.only = words.next()?,
            "--kinds" => o.kinds = words.next()?,
            "--children" => o.children = true,
            _ => return None,
        }
    }
    Some(o)
}

type Cases = Box<dyn FnOnce(&mut dyn FnMut(Lent))>;

/// All families, by name, in the order in which they are run.
fn families(o: &Options) -> Vec<(&'static str, Cases)> {
    let (s, half) = (o.seed, o.cases / 2);
    let digests = o.cases / 12;
    let random = half - digests.min(half);
    vec![
        ("short: up to 2 nodes", Box::new(move |l| exhaustive::up_to_two_nodes(l, s))),
        ("short: pairs of forests", Box::new(move |l| exhaustive::pairs(l, s))),
        ("short: validate 3 nodes", Box::new(move |l| exhaustive::three_validated(l, s))),
        ("short: canonicalize 3 nodes", Box::new(move |l| exhaustive::three_canonicalized(l, s))),
        ("short: merge 3 nodes", Box::new(move |l| exhaustive::three_merged(l, s))),
        ("lengths: every buffer", Box::new(move |l| lengths::all_lengths(l, s))),
        ("lengths: tables", Box::new(move |l| lengths::table_lengths(l, s))),
        ("sizes: chains", Box::new(move |l| sizes::chains(l, s))),
        ("sizes: powers of 2", Box::new(move |l| sizes::powers(l, s))),
        ("sizes: a day's forests", Box::new(move |l| sizes::days(l, s))),
        ("sizes: 1,024 forests", Box::new(move |l| sizes::many_forests(l, s))),
        ("sizes: kinds and counts", Box::new(move |l| sizes::kinds(l, s))),
        ("sizes: output rooms", Box::new(move |l| sizes::rooms(l, s))),
        ("random: digests", Box::new(move |l| sizes::digests(l, s, digests))),
        ("random: any", Box::new(move |l| sizes::random(l, s, random))),
        ("damaged copies", Box::new(move |l| damage::damaged(l, s, half))),
    ]
}

fn run(o: Options) -> Result<bool, String> {
    let page = std::fs::read_to_string(&o.kinds).map_err(|e| format!("{}: {e}", o.kinds))?;
    let named = kinds::read(&page).map_err(|e| format!("{}: {e}", o.kinds))?;
    engine::quiet_panics();
    let mut tally = Tally::new(Judge::new(o.children), named, o.seed);
    for (name, cases) in families(&o).into_iter().filter(|f| f.0.contains(&o.only)) {
        tally.family(name, cases);
    }
    Ok(tally.settle(o.only.is_empty()))
}

fn main() -> ExitCode {
    if std::env::args().any(|word| word == "--help") {
        println!("{USAGE}");
        return ExitCode::SUCCESS;
    }
    let Some(options) = options() else {
        eprintln!("{USAGE}");
        return ExitCode::from(2);
    };
    match guard::on_case_stack(move || run(options)).and_then(|r| r) {
        Ok(true) => ExitCode::SUCCESS,
        Ok(false) => ExitCode::FAILURE,
        Err(e) => {
            eprintln!("compare: {e}");
            ExitCode::from(2)
        },
    }
}
