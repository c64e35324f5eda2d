//! One case, judged: our library against the Rust text, and against the reading of document 01.

use forest_merge::Reply as Ours;

use crate::{
    case::{Case, Op, Out, Reply},
    compare::{
        kinds::Kind,
        lent::{Lent, Outcome},
    },
    doc01,
    front::{Forest, Refused, front, word},
    guard::{self, Ran},
};

/// How our answer stands to the Rust's.
#[derive(Debug, PartialEq, Eq)]
pub enum Verdict {
    /// No Rust type can be given this.
    Front,
    Agreed,
    Differs(Kind),
}

/// A judged case.
pub struct Seen {
    pub verdict: Verdict,
    pub reply: Refused,
    /// Where ours is not the reading of document 01: what differs, and both replies.
    pub misread: Option<String>,
}

/// Runs the Rust text, once for cases that differ in limit and room alone: it takes neither.
pub struct Judge {
    always_child: bool,
    last: Option<(Case, Ran)>,
    pub runs: u64,
    /// How many of the runs spent their stack.
    pub spent: u64,
}

impl Judge {
    pub fn new(always_child: bool) -> Judge {
        Judge { always_child, last: None, runs: 0, spent: 0 }
    }

    pub fn look(&mut self, lent: &Lent) -> Seen {
        let ours = lent.ours();
        let forests = front(&lent.case, &lent.room);
        let reading = reading(lent, &forests);
        let misread = ours.differs(&reading).map(|what| {
            format!("{what}: ours {}, document 01 {}", numbers(ours.reply), numbers(reading.reply))
        });
        let verdict = match &forests {
            Err(_) => Verdict::Front,
            Ok(forests) => against(lent, &ours, self.rust(&lent.case, forests)),
        };
        Seen { verdict, reply: ours.reply, misread }
    }

    fn rust(&mut self, case: &Case, forests: &[Forest]) -> &Ran {
        let (last, ran) = match self.last.take() {
            Some((last, ran)) if same_input(&last, case) => (last, ran),
            _ => (case.clone(), self.fresh(case, forests)),
        };
        &self.last.insert((last, ran)).1
    }

    fn fresh(&mut self, case: &Case, forests: &[Forest]) -> Ran {
        let ran = guard::run(case, forests, self.always_child);
        self.runs += 1;
        self.spent += matches!(ran, Ran::StackSpent) as u64;
        ran
    }
}

fn same_input(a: &Case, b: &Case) -> bool {
    a.op == b.op && a.table == b.table && a.nodes == b.nodes && a.roots == b.roots
}

pub fn name(reply: Refused) -> &'static str {
    Ours { number: reply.0, first: reply.1, second: reply.2 }.name()
}

fn numbers(reply: Refused) -> String {
    format!("{} {} {}", reply.0, reply.1, reply.2)
}

/// What document 01 has the call leave, by its independent reading.
fn reading(lent: &Lent, forests: &Result<Vec<Forest>, Refused>) -> Outcome {
    let none = Out::refuse("doc01", "0", None, None);
    let forests = match forests {
        Err(refused) => return lent.left(*refused, &none),
        Ok(forests) => forests,
    };
    let out = match (lent.case.op, forests.first()) {
        (Op::Merge, _) => doc01::merge(forests, lent.case.limit as usize),
        (Op::Validate, Some((nodes, _))) => doc01::validate(nodes),
        (_, Some((nodes, roots))) => doc01::canonicalize(nodes, roots),
        (_, None) => none,
    };
    match told(&out, (u32::MAX, u64::MAX, u64::MAX), lent) {
        Some(reply) => lent.left(roomed(lent, reply), &out),
        None => lent.left((u32::MAX, 0, 0), &out),
    }
}

/// Only Merge's outputs may be too small; the other calls refuse by length.
fn roomed(lent: &Lent, reply: Refused) -> Refused {
    match reply {
        (0, nodes, roots) if lent.case.op == Op::Merge && !lent.fits(nodes, roots) => {
            (9, nodes, roots)
        },
        other => other,
    }
}

fn against(lent: &Lent, ours: &Outcome, ran: &Ran) -> Verdict {
    let differs = |rust: String| Verdict::Differs(Kind::new(lent.case.op, name(ours.reply), &rust));
    let out = match ran {
        Ran::StackSpent => return differs("stack spent".into()),
        Ran::Died(how) => return differs(format!("died, {how}")),
        Ran::Answer(out) => out,
    };
    if let Reply::Panic(message) = &out.reply {
        return differs(panic_place(message));
    }
    let expected = told(out, ours.reply, lent).map(|reply| lent.left(roomed(lent, reply), out));
    match expected {
        Some(expected) if expected.differs(ours).is_none() => Verdict::Agreed,
        _ => differs(did(out, ours)),
    }
}

/// The reply that an answer amounts to, with our values where the Rust's error does not tell.
fn told(out: &Out, ours: Refused, lent: &Lent) -> Option<Refused> {
    let Reply::No(number, first, second) = &out.reply else { return None };
    let reply = match (*number, ours.0) {
        // NodeIdOverflow of canonicalize_parts: a root's number or a child's.
        ("6|4", 4) => (4, ours.1, 0),
        ("6|4", _) => (6, ours.1, (*second)?),
        (number, _) => {
            (number.parse().ok()?, first.unwrap_or(ours.1), second.unwrap_or(ours.2))
        },
    };
    // The Rust tells which root is out of range, ours at which place it stands.
    let root = out.error.as_deref().filter(|_| reply.0 == 4).map(overflow);
    match root {
        Some(root) if root.is_none() || root != root_at(lent, reply.1) => None,
        _ => Some(reply),
    }
}

/// The id in `NodeIdOverflow(id, count)`.
fn overflow(error: &str) -> Option<u32> {
    let inside = error.strip_prefix("NodeIdOverflow(")?;
    inside.split_once(',')?.0.parse().ok()
}

fn root_at(lent: &Lent, place: u64) -> Option<u32> {
    let at = usize::try_from(place).ok()?.checked_mul(4)?;
    lent.case.roots.get(at..at.checked_add(4)?).map(word)
}

/// What the Rust did, in a word, where that is not what ours did.
fn did(out: &Out, ours: &Outcome) -> String {
    let number = match &out.reply {
        Reply::No("6|4", ..) => return "NodeIdOverflow".into(),
        Reply::No(number, ..) => number.parse().unwrap_or(u32::MAX),
        Reply::Panic(_) => u32::MAX,
    };
    let rust = name((number, 0, 0));
    if number == ours.reply.0 { format!("{rust}, otherwise") } else { rust.to_string() }
}

/// The place of a panic; a line alone is one of multi_forest_node_iterator.rs.
fn panic_place(message: &str) -> String {
    let place = message.rsplit(" at ").next().unwrap_or("?");
    match place.rsplit_once(':') {
        Some((file, line)) if file.ends_with("multi_forest_node_iterator.rs") => {
            format!("panic line {line}")
        },
        _ => format!("panic {place}"),
    }
}
