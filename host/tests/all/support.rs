//! Forests to try things on, a folder to try them in, and the command.

use std::fs;
use std::path::{Path, PathBuf};
use std::process::{self, Command};
use std::sync::atomic::{AtomicUsize, Ordering};

/// A node record from its fields; the digest has one word that is not 0.
pub fn record(kind: u32, count: u32, kids: [u32; 2], digest: u64) -> Vec<u8> {
    let mut bytes = words(&[kind, count, kids[0], kids[1]]);
    bytes.extend(digest.to_le_bytes());
    bytes.resize(48, 0);
    bytes
}

pub fn external(digest: u64) -> Vec<u8> {
    record(0, 0, [0, 0], digest)
}

pub fn block(digest: u64) -> Vec<u8> {
    record(1, 0, [0, 0], digest)
}

pub fn internal(digest: u64, children: &[u32]) -> Vec<u8> {
    let mut kids = [0, 0];
    kids[..children.len()].copy_from_slice(children);
    record(2, children.len() as u32, kids, digest)
}

/// A block, and internals above it each with the one before as its child.
pub fn chain(nodes: u32) -> Vec<u8> {
    let above = (1..nodes).flat_map(|number| internal(u64::from(number), &[number - 1]));
    block(0).into_iter().chain(above).collect()
}

pub fn words(words: &[u32]) -> Vec<u8> {
    words.iter().flat_map(|word| word.to_le_bytes()).collect()
}

/// A table from node and root counts.
pub fn table(rows: &[(u32, u32)]) -> Vec<u8> {
    rows.iter()
        .flat_map(|&(nodes, roots)| words(&[nodes, roots]))
        .collect()
}

/// The nodes of the manual's K4.
pub fn k4() -> Vec<u8> {
    [external(7), external(5), internal(3, &[0, 1]), external(7)].concat()
}

/// The nodes of its result.
pub fn k4_merged() -> Vec<u8> {
    [external(5), external(7), internal(3, &[1, 0])].concat()
}

/// A temporary folder that goes away with this value.
pub struct Scratch(PathBuf);

impl Scratch {
    pub fn new() -> Scratch {
        static NEXT: AtomicUsize = AtomicUsize::new(0);
        let number = NEXT.fetch_add(1, Ordering::Relaxed);
        let name = format!("forest-test-{}-{number}", process::id());
        let path = std::env::temp_dir().join(name);
        fs::create_dir(&path).unwrap();
        Scratch(path)
    }

    pub fn path(&self, name: &str) -> PathBuf {
        self.0.join(name)
    }

    /// A folder with the three files.
    pub fn input(&self, table: &[u8], nodes: &[u8], roots: &[u32]) -> PathBuf {
        let dir = self.path("in");
        fs::create_dir_all(&dir).unwrap();
        fs::write(dir.join("table"), table).unwrap();
        fs::write(dir.join("nodes"), nodes).unwrap();
        fs::write(dir.join("roots"), words(roots)).unwrap();
        dir
    }

    pub fn k4(&self) -> PathBuf {
        self.input(&table(&[(4, 2)]), &k4(), &[2, 3])
    }

    /// The names in the folder, sorted.
    pub fn names(&self) -> Vec<String> {
        names(&self.0)
    }
}

impl Drop for Scratch {
    fn drop(&mut self) {
        let _ = fs::remove_dir_all(&self.0);
    }
}

pub fn names(dir: &Path) -> Vec<String> {
    let entries = fs::read_dir(dir).unwrap();
    let mut names: Vec<String> = entries
        .map(|entry| entry.unwrap().file_name().into_string().unwrap())
        .collect();
    names.sort();
    names
}

/// What a run of the command gave.
#[derive(Debug, PartialEq, Eq)]
pub struct Run {
    pub status: i32,
    pub stdout: String,
    pub stderr: String,
}

pub fn command() -> Command {
    Command::new(env!("CARGO_BIN_EXE_forest"))
}

/// Runs the command; a word `IN` or `OUT` stands for that folder of the scratch.
pub fn run(scratch: &Scratch, line: &str) -> Run {
    let words = line.split_whitespace().map(|word| match word {
        "IN" => scratch.path("in").into_os_string(),
        "OUT" => scratch.path("out").into_os_string(),
        other => other.into(),
    });
    let output = command().args(words).output().unwrap();
    Run {
        status: output.status.code().unwrap_or(-1),
        stdout: String::from_utf8(output.stdout).unwrap(),
        stderr: String::from_utf8(output.stderr).unwrap(),
    }
}
