//! Kinds of difference, and the table of docs/DIFFERENCES.md that names them.

use std::fmt;

use crate::case::Op;

/// The heading of the table, behind its number.
const HEADING: &str = "Kinds of difference";

/// The call, the name of our reply, and what the Rust did.
#[derive(Debug, Clone, PartialEq, Eq, PartialOrd, Ord)]
pub struct Kind {
    pub call: String,
    pub ours: String,
    pub rust: String,
}

/// A kind that the table names.
#[derive(Debug, Clone)]
pub struct Named {
    pub name: String,
    pub kind: Kind,
}

impl Kind {
    pub fn new(op: Op, ours: &str, rust: &str) -> Kind {
        Kind { call: op.word().into(), ours: ours.into(), rust: rust.into() }
    }
}

impl fmt::Display for Kind {
    fn fmt(&self, f: &mut fmt::Formatter<'_>) -> fmt::Result {
        write!(f, "{}: ours {}, the Rust {}", self.call, self.ours, self.rust)
    }
}

/// The named kinds in the text of docs/DIFFERENCES.md.
pub fn read(text: &str) -> Result<Vec<Named>, String> {
    let is_heading = |l: &&str| l.starts_with("## ") && l.trim_end().ends_with(HEADING);
    let mut lines = text.lines().skip_while(|l| !is_heading(l));
    lines.next().ok_or_else(|| format!("no heading \"{HEADING}\""))?;
    let section = lines.take_while(|l| !l.starts_with('#'));
    // The first two rows are the names of the columns and the line below them.
    let rows = section.filter(|l| l.starts_with('|')).skip(2);
    let named = rows.map(row).collect::<Result<Vec<Named>, String>>()?;
    if named.is_empty() {
        return Err(format!("no row under \"{HEADING}\""));
    }
    Ok(named)
}

fn row(line: &str) -> Result<Named, String> {
    let cells: Vec<&str> = line.trim().trim_matches('|').split('|').map(str::trim).collect();
    let [name, call, ours, rust, _] = cells.as_slice() else {
        return Err(format!("not five columns: {line}"));
    };
    let kind = Kind { call: call.to_string(), ours: ours.to_string(), rust: rust.to_string() };
    Ok(Named { name: name.to_string(), kind })
}
