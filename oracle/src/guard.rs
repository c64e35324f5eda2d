//! The oracle's own: the Rust text is run so that a spent stack is an answer and not the end.
//!
//! On a cycle the Rust calls itself until its stack is spent, which kills the process. Where a root
//! reaches a cycle it runs in a child process, which dies in its place. A cycle that `goes_round`
//! does not foresee kills this process, so that a mistake there is seen.
//!
//! The child's stack is small, as touching a large one is what costs time, and large enough: a walk
//! that is deeper than there are nodes goes round and never ends.

use std::{
    collections::HashMap,
    io::{Read, Write, pipe},
    os::fd::AsRawFd,
};

use crate::{
    case::{Case, NONE, Op, Out, Rec, Reply},
    engine,
    front::Forest,
};

/// Stack of the thread that runs cases. Nothing that ends comes near it.
const STACK: usize = 64 << 20;

/// Stack of a child: what any run needs, and for each node more than a level of the walk takes.
const CHILD_STACK: usize = 96 << 10;
const CHILD_STACK_PER_NODE: usize = 2 << 10;

unsafe extern "C" {
    fn fork() -> i32;
    fn waitpid(process: i32, status: *mut i32, options: i32) -> i32;
    fn dup2(from: i32, to: i32) -> i32;
    fn prctl(option: i32, value: usize) -> i32;
    fn _exit(status: i32) -> !;
}

const STANDARD_ERROR: i32 = 2;
const SET_DUMPABLE: i32 = 4;
const SIGNAL_ABORT: i32 = 6;
const SPENT: &str = "has overflowed its stack";

/// How a run of the Rust text ended.
#[derive(Debug, Clone)]
pub enum Ran {
    Answer(Out),
    StackSpent,
    /// Neither an answer nor a spent stack: nothing that is expected.
    Died(String),
}

/// Runs `work` on a thread with the stack that cases are run on.
pub fn on_case_stack<T: Send + 'static>(
    work: impl FnOnce() -> T + Send + 'static,
) -> Result<T, String> {
    let thread = std::thread::Builder::new().name("cases".into()).stack_size(STACK).spawn(work);
    let thread = thread.map_err(|e| format!("no thread: {e}"))?;
    thread.join().map_err(|_| "the thread of the cases panicked".to_string())
}

/// Runs the Rust text, in a child process if need be or if `always`.
pub fn run(case: &Case, forests: &[Forest], always: bool) -> Ran {
    if always || (case.op == Op::Merge && goes_round(forests)) {
        return run_in_child(case);
    }
    Ran::Answer(engine::run(case))
}

/// Runs the Rust text in a child process.
pub fn run_in_child(case: &Case) -> Ran {
    let stack = CHILD_STACK + CHILD_STACK_PER_NODE * (case.nodes.len() / 48);
    let job = || in_child(|| engine::run(case).text("-", false));
    // The child goes on with the stack of the thread that makes it.
    let ended = std::thread::scope(|scope| {
        let thread = std::thread::Builder::new().stack_size(stack).spawn_scoped(scope, job);
        thread.map_err(|e| format!("no thread: {e}"))?.join().map_err(|_| "panic".to_string())?
    });
    match ended {
        Ok((0, text)) => match parse(&text) {
            Some(out) => Ran::Answer(out),
            None => Ran::Died(format!("unreadable answer {text:?}")),
        },
        Ok((SIGNAL_ABORT, text)) if text.contains(SPENT) => Ran::StackSpent,
        Ok((status, text)) => Ran::Died(format!("status {status} {}", text.replace('\n', " "))),
        Err(e) => Ran::Died(e),
    }
}

/// The wait status of a child that runs `job`, and what it wrote, its last words too.
fn in_child(job: impl FnOnce() -> String) -> Result<(i32, String), String> {
    let (mut reader, mut writer) = pipe().map_err(|e| format!("no pipe: {e}"))?;
    // Sound: the child runs on the one thread it has, and ends by _exit.
    let child = unsafe { fork() };
    if child < 0 {
        return Err("no child process".into());
    }
    if child == 0 {
        drop(reader);
        // Sound: no memory is handed over. No core file; what is said on dying goes to the pipe.
        unsafe {
            prctl(SET_DUMPABLE, 0);
            dup2(writer.as_raw_fd(), STANDARD_ERROR);
        }
        let sent = writer.write_all(job().as_bytes());
        unsafe { _exit(if sent.is_ok() { 0 } else { 1 }) }
    }
    drop(writer);
    let mut bytes = vec![];
    let read = reader.read_to_end(&mut bytes);
    let mut status = 0;
    // Sound: the status is written to a place of its own.
    let ended = unsafe { waitpid(child, &mut status, 0) };
    match (read, ended == child) {
        (Ok(_), true) => Ok((status & !0x80, String::from_utf8_lossy(&bytes).into_owned())),
        _ => Err("a child process was lost".into()),
    }
}

const NUMBERS: [&str; 15] =
    ["0", "1", "2", "3", "4", "5", "6", "7", "8", "9", "10", "11", "12", "13", "6|4"];

/// An answer from its text (`Out::text`).
fn parse(text: &str) -> Option<Out> {
    let mut out = Out::refuse("rust", "0", None, None);
    let mut ended = false;
    for line in text.lines() {
        let (word, rest) = line.split_once(' ').unwrap_or((line, ""));
        match word {
            "case" | "by" => {},
            "reply" => out.reply = parse_reply(rest)?,
            "error" => out.error = Some(rest.to_string()),
            "node" => out.nodes.push(parse_node(rest)?),
            "root" => out.roots.push(rest.parse().ok()?),
            "map" if rest == "-" => out.map.push(NONE),
            "map" => out.map.push(rest.parse().ok()?),
            "end" => ended = true,
            _ => return None,
        }
    }
    ended.then_some(out)
}

fn parse_reply(text: &str) -> Option<Reply> {
    if let Some(message) = text.strip_prefix("panic ") {
        return Some(Reply::Panic(message.to_string()));
    }
    let mut parts = text.split(' ');
    let word = parts.next()?;
    let number = NUMBERS.iter().find(|n| **n == word)?;
    let mut value = || match parts.next()? {
        "?" => Some(None),
        v => Some(Some(v.parse().ok()?)),
    };
    Some(Reply::No(number, value()?, value()?))
}

fn parse_node(text: &str) -> Option<Rec> {
    let numbers: Option<Vec<u64>> = text.split(' ').map(|w| w.parse().ok()).collect();
    let numbers = numbers?;
    let [_, kind, count, a, b, digest @ ..] = numbers.as_slice() else { return None };
    Some(Rec {
        kind: *kind as u32,
        count: *count as u32,
        child: [*a as u32, *b as u32],
        digest: digest.try_into().ok()?,
    })
}

/// The nodes of all forests by position, with the steps that the Rust's walk can take.
struct Steps {
    to: Vec<Vec<usize>>,
    roots: Vec<usize>,
}

impl Steps {
    fn of(forests: &[Forest]) -> Steps {
        let mut holder = HashMap::new();
        let all = || forests.iter().flat_map(|f| &f.0);
        for (p, r) in all().enumerate().filter(|(_, r)| r.kind != 0) {
            holder.insert(r.digest, p);
        }
        let (mut to, mut roots, mut base) = (vec![], vec![], 0);
        for (recs, own) in forests {
            // What is out of range ends the walk and leads nowhere.
            let inside = |c: &u32| ((*c as usize) < recs.len()).then_some(base + *c as usize);
            for r in recs {
                let mut steps: Vec<usize> = r.children().iter().filter_map(inside).collect();
                if r.kind == 0 {
                    steps.extend(holder.get(&r.digest));
                }
                to.push(steps);
            }
            roots.extend(own.iter().filter_map(inside));
            base += recs.len();
        }
        Steps { to, roots }
    }
}

/// Whether a root reaches a cycle, by children in range or by replacements.
pub fn goes_round(forests: &[Forest]) -> bool {
    let Steps { to, roots } = Steps::of(forests);
    let (mut open, mut done) = (vec![false; to.len()], vec![false; to.len()]);
    for root in roots {
        // Each entry: a node and which of its steps comes next.
        let mut path = vec![(root, 0)];
        while let Some((node, next)) = path.pop() {
            if done[node] {
                continue;
            }
            if next == 0 && open[node] {
                return true;
            }
            open[node] = true;
            match to[node].get(next) {
                Some(&below) => path.extend([(node, next + 1), (below, 0)]),
                None => done[node] = true,
            }
        }
    }
    false
}
