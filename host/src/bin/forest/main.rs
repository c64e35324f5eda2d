//! The command `forest`: checks, orders, merges and shows the forests of a folder.

#![forbid(unsafe_code)]

mod args;
mod dot;
mod input;
mod output;
mod parts;
mod progress;
mod show;
mod trouble;

use args::{Request, Say};
use forest_merge::record::NODE_SIZE;
use forest_merge::{counted, Forest, Job, Refusal, Reply, Room};
use output::Target;
use parts::Input;
use progress::Progress;
use std::env;
use std::io::{self, stderr, stdout, BufWriter, ErrorKind, Write};
use std::path::Path;
use std::process::ExitCode;
use std::thread;
use trouble::Trouble;

/// The stack of the thread that merges: several times what the highest limit needs.
const STACK: usize = 8 << 20;

/// The exit states but that of acceptance.
const REFUSED: u8 = 1;
const TROUBLE: u8 = 2;

fn main() -> ExitCode {
    let words = env::args_os().skip(1).collect();
    match args::parse(words).and_then(run) {
        Ok(status) => status,
        Err(trouble) => {
            // Where standard error is closed the exit status still tells.
            let _ = writeln!(stderr(), "forest: {trouble}");
            ExitCode::from(TROUBLE)
        }
    }
}

fn run(request: Request) -> Result<ExitCode, Trouble> {
    match request {
        Request::Help => print(|out| out.write_all(args::HELP.as_bytes())),
        Request::Validate { dir, say } => validate(&dir, say),
        Request::Canonicalize { dir, out, say } => canonicalize(&dir, &out, say),
        Request::Merge {
            dir,
            out,
            limit,
            say,
        } => merge(&dir, &out, limit, say),
        Request::Show { dir, dot } => show(&dir, dot),
    }
}

fn validate(dir: &Path, say: Say) -> Result<ExitCode, Trouble> {
    let nodes = input::bytes(dir, "nodes")?;
    let result = {
        let _progress = telling("validating", &nodes);
        forest_merge::validate(&nodes)
    };
    match result {
        Ok(count) => tell(&Job::validate(&nodes), accepted(count, 0), say),
        Err(refusal) => refuse(&refusal, say),
    }
}

fn canonicalize(dir: &Path, out: &Path, say: Say) -> Result<ExitCode, Trouble> {
    let target = Target::new(out, dir)?;
    let nodes = input::bytes(dir, "nodes")?;
    let roots = input::roots(dir)?;
    let room = room(&nodes, &roots)?;
    let result = {
        let _progress = telling("canonicalizing", &nodes);
        forest_merge::canonicalize_in(room, &nodes, &roots)
    };
    deliver(&target, &Job::canonicalize(&nodes, &roots), result, say)
}

fn merge(dir: &Path, out: &Path, limit: u32, say: Say) -> Result<ExitCode, Trouble> {
    let target = Target::new(out, dir)?;
    let table = input::bytes(dir, "table")?;
    let nodes = input::bytes(dir, "nodes")?;
    let roots = input::roots(dir)?;
    let room = room(&nodes, &roots)?;
    let result = {
        let _progress = telling("merging", &nodes);
        on_own_stack(|| forest_merge::merge_in(room, &table, &nodes, &roots, limit))?
    };
    deliver(
        &target,
        &Job::merge(&table, &nodes, &roots, limit),
        result,
        say,
    )
}

fn show(dir: &Path, as_dot: bool) -> Result<ExitCode, Trouble> {
    let input = Input {
        table: input::bytes(dir, "table")?,
        nodes: input::bytes(dir, "nodes")?,
        roots: input::roots(dir)?,
    };
    print(|out| match as_dot {
        true => dot::print(&input, out),
        false => show::print(&input, out),
    })
}

/// Writes an accepted result and tells of it; tells of a refusal and writes nothing.
fn deliver(
    target: &Target,
    job: &Job,
    result: Result<Forest, Refusal>,
    say: Say,
) -> Result<ExitCode, Trouble> {
    match result {
        Ok(forest) => {
            target.write(&forest)?;
            let nodes = forest.nodes.len() / NODE_SIZE;
            tell(job, accepted(nodes as u64, forest.roots.len() as u64), say)
        }
        Err(refusal) => refuse(&refusal, say),
    }
}

fn accepted(first: u64, second: u64) -> Reply {
    Reply {
        number: 0,
        first,
        second,
    }
}

fn tell(job: &Job, reply: Reply, say: Say) -> Result<ExitCode, Trouble> {
    print(|out| say_reply(out, reply, &job.sentence(reply), say))
}

fn refuse(refusal: &Refusal, say: Say) -> Result<ExitCode, Trouble> {
    print(|out| say_reply(out, refusal.reply(), &refusal.to_string(), say))?;
    Ok(ExitCode::from(REFUSED))
}

fn say_reply(out: &mut dyn Write, reply: Reply, sentence: &str, say: Say) -> io::Result<()> {
    if say != Say::Nothing {
        writeln!(out, "{} {} {}", reply.number, reply.first, reply.second)?;
    }
    if say == Say::Explained {
        writeln!(out, "{sentence}")?;
    }
    Ok(())
}

/// Prints to standard output. Where nobody reads it any more, that is the end and no trouble.
fn print(write: impl FnOnce(&mut dyn Write) -> io::Result<()>) -> Result<ExitCode, Trouble> {
    let mut out = BufWriter::new(stdout().lock());
    match write(&mut out).and_then(|()| out.flush()) {
        Err(error) if error.kind() != ErrorKind::BrokenPipe => {
            Err(Trouble::new(format!("standard output: {error}")))
        }
        _ => Ok(ExitCode::SUCCESS),
    }
}

fn room(nodes: &[u8], roots: &[u32]) -> Result<Room, Trouble> {
    let count = counted((nodes.len() / NODE_SIZE) as u64, "node");
    Room::try_for_input(nodes, roots)
        .map_err(|error| Trouble::new(format!("memory for {count}: {error}")))
}

fn telling(what: &str, nodes: &[u8]) -> Progress {
    let count = counted((nodes.len() / NODE_SIZE) as u64, "node");
    Progress::start(format!("{what} {count}"))
}

/// Runs a call on a thread whose stack is large enough for any limit.
fn on_own_stack<T: Send>(call: impl FnOnce() -> T + Send) -> Result<T, Trouble> {
    thread::scope(|scope| {
        let thread = thread::Builder::new()
            .stack_size(STACK)
            .spawn_scoped(scope, call)
            .map_err(|error| Trouble::new(format!("a thread to merge on: {error}")))?;
        let answer = thread.join();
        answer.map_err(|_| Trouble::new("the thread that merged ended without an answer"))
    })
}
