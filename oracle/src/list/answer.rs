//! The answer to a case of the list, and whose it is. Our own library is asked nothing.

use super::entry::Entry;
use crate::{
    case::{Case, Op, Out, Reply},
    doc01,
    front::{Forest, Lengths, front},
    guard::{self, Ran},
};

/// Digest words of the Rust are elements of a field: all are below this number.
const FIELD: u64 = 0xFFFF_FFFF_0000_0001;
/// No case of the list has as many nodes, so under this limit none is too deep.
const NO_LIMIT: u64 = 4096;
const MOST_FORESTS: usize = 1024;
/// The numbers that the front can answer, as words.
const FRONT: [&str; 14] = ["0", "1", "2", "3", "", "", "", "", "", "", "", "", "", "13"];

/// Whose an answer is; `SAID` says what each mark means.
pub type Mark = &'static str;

pub const SAID: [(Mark, &str); 10] = [
    ("rust", "all of it is the Rust's"),
    (
        "rust, 01 where",
        "the Rust's error does not tell the root's place, or the child's parent: that value is document 01's (section 2, last row; number 6)",
    ),
    (
        "rust, 01 room",
        "the counts are the Rust's; that they do not fit is document 01's (section 2, output room)",
    ),
    ("01 stack", "the Rust spends its stack (section 2, cycles; number 4)"),
    ("01 panic", "the Rust panics (section 2, first row; numbers 1 and 3)"),
    ("01 unseen", "the Rust accepts, it does not see a bad child that no root reaches (number 2)"),
    ("01 limit", "the Rust has no limit, it accepts (section 2, depth limit and its range)"),
    ("01 forests", "the Rust has no bound on forests, it accepts (number 8)"),
    (
        "01 lent",
        "no Rust type can be given what is lent (section 2, records and lengths; number 9)",
    ),
    ("01 word", "no Rust type can hold a digest word that high (number 11)"),
];

fn number(out: &Out) -> &'static str {
    match out.reply {
        Reply::No(n, ..) => n,
        Reply::Panic(_) => "panic",
    }
}

fn refusal(no: &'static str, first: usize, second: usize) -> Out {
    Out::refuse("doc01", no, Some(first as u64), Some(second as u64))
}

/// The room that is lent, where the case gives its lengths.
fn room(entry: &Entry, case: &Case) -> Lengths {
    let enough = Lengths::enough(case);
    let given = |l: [usize; 7]| Lengths { nodes: l[3], roots: l[4], ids: l[5], work: l[6] };
    entry.lengths.map_or(enough, given)
}

/// Document 01's answer, the lengths of the room among it; whether a result fits is not looked at.
fn document(entry: &Entry, case: &Case) -> Out {
    let Err((no, first, second)) = front(case, &room(entry, case)) else {
        return doc01::run(case);
    };
    Out::refuse("doc01", FRONT[no as usize], Some(first), Some(second))
}

/// Why no Rust type can be given the case, if so: the limit and the number of forests it can be.
fn foreign(entry: &Entry, case: &Case) -> Option<Mark> {
    let plain = Case { limit: NO_LIMIT, ..case.clone() };
    let many = case.table.len() / 8 > MOST_FORESTS;
    if !many && front(&plain, &room(entry, case)).is_err() {
        return Some("01 lent");
    }
    let Ok(forests) = case.forests() else {
        return Some("01 lent");
    };
    let high = |f: &Forest| f.0.iter().any(|n| n.digest.iter().any(|&w| w >= FIELD));
    forests.iter().any(high).then_some("01 word")
}

/// Whether two answers are one, as far as the first tells.
fn agree(rust: &Out, doc: &Out) -> bool {
    let (Reply::No(n, a, b), Reply::No(m, c, d)) = (&rust.reply, &doc.reply) else {
        return false;
    };
    let same = |told: &Option<u64>, said: &Option<u64>| told.is_none() || told == said;
    let buffers = rust.nodes == doc.nodes && rust.roots == doc.roots && rust.map == doc.map;
    n == m && same(a, c) && same(b, d) && buffers
}

/// Whose the answer is, by what the Rust does and what document 01 says with the limit lifted;
/// none where the two part otherwise than docs/DIFFERENCES.md names.
fn mark(case: &Case, rust: Option<&Out>, said: &Out) -> Option<Mark> {
    let lifted = doc01::run(&Case { limit: NO_LIMIT, ..case.clone() });
    let Some(rust) = rust else {
        return matches!(number(&lifted), "4" | "6" | "7").then_some("01 stack");
    };
    let limited = matches!(number(said), "8" | "13");
    match (number(rust), number(&lifted)) {
        ("panic", "4" | "6") => Some("01 panic"),
        ("0", "2") if case.table.len() / 8 > MOST_FORESTS => Some("01 forests"),
        ("0", "6") if case.op == Op::Merge => Some("01 unseen"),
        ("0", "0") if agree(rust, &lifted) && limited => Some("01 limit"),
        ("4" | "6", _) if agree(rust, said) => Some("rust, 01 where"),
        _ if agree(rust, said) && matches!(rust.reply, Reply::No(_, Some(_), Some(_))) => {
            Some("rust")
        },
        _ => None,
    }
}

/// NoRoom where the counts of an accepted merge pass the room that is lent.
fn no_room(entry: &Entry, out: &Out) -> Option<Out> {
    let l = entry.lengths.filter(|_| entry.op == Op::Merge && number(out) == "0")?;
    let (nodes, roots) = (out.nodes.len(), out.roots.len());
    (nodes > l[3] / 48 || roots > l[4]).then(|| refusal("9", nodes, roots))
}

/// The answer and its mark, or how the Rust and document 01 disagree.
pub fn answer(entry: &Entry) -> Result<(Mark, Out), String> {
    let case = entry.case();
    let said = document(entry, &case);
    if let Some(why) = foreign(entry, &case) {
        return Ok((why, no_room(entry, &said).unwrap_or(said)));
    }
    let rust = match guard::run_in_child(&case) {
        Ran::Answer(out) => Some(out),
        Ran::StackSpent => None,
        Ran::Died(why) => return Err(format!("{}: {why}", entry.name)),
    };
    let whose = mark(&case, rust.as_ref(), &said).ok_or_else(|| {
        let told =
            rust.as_ref().map_or("spends its stack".into(), |o| format!("says {}", o.compact()));
        let said = said.compact();
        format!(
            "{}: {}: the Rust {told}; document 01 says {said}",
            entry.name,
            entry.forests_text()
        )
    })?;
    match rust {
        Some(out) if whose == "rust" => match no_room(entry, &out) {
            Some(short) => Ok(("rust, 01 room", short)),
            None => Ok((whose, out)),
        },
        _ => Ok((whose, said)),
    }
}
