//! Writes the list of cases that the program `replay` runs, and what it has to print.
//! The answers are the Rust's, or document 01's where a mark says so; our library is not asked.

use std::{
    collections::{BTreeMap, HashSet},
    path::Path,
    process::exit,
};

use oracle::{
    engine,
    list::{
        answer::{Mark, SAID, answer},
        plan::{Group, all},
    },
};

/// The crate `cases` takes fewer bytes than this.
const MOST: usize = 65_536;

const HEAD: &str = "\
# A fixed list of cases, written by oracle/list; README.md says how.
# Validate: name | nodes | reply | length
# Canonicalize: name | nodes : roots | reply | nodes : roots : ids | lengths
# Merge: name | forests | reply | nodes : roots : ids | limit lengths | table
# The words behind a name say whose the answer is. Sections and numbers: docs/DIFFERENCES.md.
";

#[derive(Default)]
struct List {
    stdin: String,
    stdout: String,
    marks: BTreeMap<Mark, usize>,
    cases: usize,
    seen: HashSet<String>,
    names: HashSet<String>,
}

impl List {
    fn head(&mut self) {
        self.stdin += HEAD;
        for (mark, says) in SAID {
            self.stdin += &format!("# ({mark}): {says}.\n");
        }
    }

    /// Adds the cases of a group, save those that the list has already.
    fn group(&mut self, group: &Group) -> Result<(), String> {
        let mut lines = String::new();
        for entry in &group.entries {
            if !entry.fits() {
                return Err(format!("{}: more than the crate cases takes", entry.name));
            }
            let (mark, out) = answer(entry)?;
            let call = group.op.word();
            if !self.seen.insert(entry.line(call, &out)) && !group.keeps {
                continue;
            }
            let name = format!("{} ({mark})", entry.name);
            if !self.names.insert(name.clone()) {
                return Err(format!("{name}: the name stands twice"));
            }
            lines += &(entry.line(&name, &out) + "\n");
            self.stdout += &format!("{name}: ok\n");
            self.cases += 1;
            *self.marks.entry(mark).or_default() += 1;
        }
        if !lines.is_empty() {
            self.stdin += &format!("\n# {}\n= {}\n{lines}", group.title, group.op.word());
        }
        Ok(())
    }

    fn whole(groups: &[Group]) -> Result<List, String> {
        let mut list = List::default();
        list.head();
        for group in groups {
            list.group(group)?;
        }
        list.stdout += &format!("{0} of {0} cases ok\n", list.cases);
        if list.stdin.len() >= MOST {
            return Err(format!(
                "{} bytes: the crate cases takes fewer than {MOST}",
                list.stdin.len()
            ));
        }
        Ok(list)
    }

    fn write(&self, folder: &Path) -> std::io::Result<()> {
        std::fs::write(folder.join("stdin"), &self.stdin)?;
        std::fs::write(folder.join("stdout"), &self.stdout)
    }
}

fn main() {
    let Some(folder) = std::env::args().nth(1) else {
        eprintln!("list: needs the folder to write stdin and stdout to");
        exit(2);
    };
    engine::quiet_panics();
    let done = List::whole(&all()).and_then(|list| {
        list.write(Path::new(&folder)).map_err(|e| format!("{folder}: {e}"))?;
        Ok(list)
    });
    match done {
        Ok(list) => {
            println!("{} cases, {} bytes", list.cases, list.stdin.len());
            list.marks.iter().for_each(|(mark, n)| println!("{n:5} {mark}"));
        },
        Err(why) => {
            eprintln!("list: {why}");
            exit(1);
        },
    }
}
