//! One case or a batch of them with the Rust text or the reading of document 01. README.md says more.

use std::{fs, path::Path, process::ExitCode};

use oracle::{
    case::{Case, Op},
    doc01, engine,
    guard::{self, Ran},
};

const USAGE: &str = "oracle validate|canonicalize|canonicalize-parts|merge DIR [options]
oracle batch FILE|- [options]
oracle pack DIR 'E7 I3(0) : 1 | B7 :'
options: --doc01 (the reading of document 01, not the Rust)  --limit L (merge DIR with --doc01)";

struct Options {
    words: Vec<String>,
    doc01: bool,
    limit: u64,
}

fn options() -> Option<Options> {
    let mut o = Options { words: vec![], doc01: false, limit: 256 };
    let mut words = std::env::args().skip(1);
    while let Some(word) = words.next() {
        match word.as_str() {
            "--doc01" => o.doc01 = true,
            "--limit" => o.limit = words.next()?.parse().ok()?,
            _ => o.words.push(word),
        }
    }
    Some(o)
}

fn answer(case: &Case, by_doc01: bool) -> String {
    if by_doc01 {
        return doc01::run(case).text(&case.name, false);
    }
    let ran = match case.forests() {
        Ok(forests) => guard::run(case, &forests, false),
        Err(_) => Ran::Answer(engine::run(case)),
    };
    let ended = match ran {
        Ran::Answer(out) => return out.text(&case.name, false),
        Ran::StackSpent => "stack spent".to_string(),
        Ran::Died(how) => format!("died, {how}"),
    };
    format!("case {}\nby rust\nreply {ended}\nend\n", case.name)
}

fn folder(op: &str, dir: &str, limit: u64) -> Result<Case, String> {
    let (op, _) = Op::parse(op).ok_or(USAGE)?;
    let read = |name: &str, wanted: bool| match wanted {
        true => fs::read(Path::new(dir).join(name)).map_err(|e| format!("{dir}/{name}: {e}")),
        false => Ok(vec![]),
    };
    let table = read("table", op == Op::Merge)?;
    let nodes = read("nodes", true)?;
    let roots = read("roots", op != Op::Validate)?;
    Ok(Case { name: "dir".into(), op, limit, table, nodes, roots })
}

fn batch(file: &str, by_doc01: bool) -> Result<(), String> {
    let text = match file {
        "-" => std::io::read_to_string(std::io::stdin()),
        file => fs::read_to_string(file),
    };
    let text = text.map_err(|e| format!("{file}: {e}"))?;
    let lines = text.lines().map(str::trim).filter(|l| !l.is_empty() && !l.starts_with('#'));
    for line in lines {
        let case = Case::parse(line).ok_or_else(|| format!("not a case: {line}"))?;
        print!("{}", answer(&case, by_doc01));
    }
    Ok(())
}

fn pack(dir: &str, forests: &str) -> Result<(), String> {
    let case = Case::parse(&format!("- merge {forests}")).ok_or("not forests")?;
    fs::create_dir_all(dir).map_err(|e| format!("{dir}: {e}"))?;
    let files = [("table", case.table), ("nodes", case.nodes), ("roots", case.roots)];
    for (name, bytes) in files {
        fs::write(Path::new(dir).join(name), bytes).map_err(|e| format!("{dir}/{name}: {e}"))?;
    }
    Ok(())
}

fn run(o: Options) -> Result<(), String> {
    engine::quiet_panics();
    let words: Vec<&str> = o.words.iter().map(String::as_str).collect();
    match words.as_slice() {
        ["batch", file] => batch(file, o.doc01),
        ["pack", dir, forests] => pack(dir, forests),
        [op, dir] => {
            print!("{}", answer(&folder(op, dir, o.limit)?, o.doc01));
            Ok(())
        },
        _ => Err(USAGE.into()),
    }
}

fn main() -> ExitCode {
    let run = || run(options().ok_or(USAGE)?);
    match guard::on_case_stack(run).and_then(|r| r) {
        Ok(()) => ExitCode::SUCCESS,
        Err(e) => {
            eprintln!("{e}");
            ExitCode::from(2)
        },
    }
}
