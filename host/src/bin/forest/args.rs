//! The command's words.

use crate::trouble::Trouble;
use forest_merge::MOST_LIMIT;
use std::ffi::OsString;
use std::path::PathBuf;

pub const HELP: &str = "\
forest: checks, orders and merges MAST forests

  forest validate DIR                         whether the nodes stand in canonical order
  forest canonicalize DIR --out OUT           puts one forest into canonical order
  forest merge DIR --out OUT [--limit N]      merges all forests into one
  forest show DIR [--dot]                     the forests as indented text, or for Graphviz

DIR holds the files table (merge, show), nodes, and roots (all but validate).
OUT gets the files nodes, roots, ids, and a table with one row, all or none. An
OUT that exists is replaced if it is a folder with no other files than these;
otherwise it is left alone, and that is trouble.

  --limit N    how many nodes may be open at once, 1 to 4096; without it 4096
  --explain    a second line says in words what the reply means
  --quiet      prints no reply; the exit status tells
  --dot        Graphviz, one cluster for each forest
  --help       this text

The first line printed is the reply: its number and two values. 0 is accepted,
with the numbers of nodes and roots. Forests, nodes, roots and positions count
from 0. Digests are shown as four words in hexadecimal.

Exit status: 0 accepted or shown, 1 refused, 2 trouble with files or arguments.

Example, from the top of the repository:

  $ forest merge crates/demo/data --out merged --explain
  0 3 2
  3 nodes and 2 roots, merged from 4 nodes and 2 roots of 1 forest
  $ forest show merged
";

/// How much is said of a reply.
#[derive(Clone, Copy, Debug, PartialEq, Eq)]
pub enum Say {
    Numbers,
    Explained,
    Nothing,
}

/// What is asked for.
#[derive(Debug, PartialEq, Eq)]
pub enum Request {
    Help,
    Validate {
        dir: PathBuf,
        say: Say,
    },
    Canonicalize {
        dir: PathBuf,
        out: PathBuf,
        say: Say,
    },
    Merge {
        dir: PathBuf,
        out: PathBuf,
        limit: u32,
        say: Say,
    },
    Show {
        dir: PathBuf,
        dot: bool,
    },
}

/// Reads the words behind the command's name.
pub fn parse(words: Vec<OsString>) -> Result<Request, Trouble> {
    let mut words = words.into_iter();
    let Some(first) = words.next() else {
        return Err(usage(
            "which command? validate, canonicalize, merge or show",
        ));
    };
    let command = first.to_string_lossy().into_owned();
    if command == "--help" || command == "-h" {
        return Ok(Request::Help);
    }
    if !["validate", "canonicalize", "merge", "show"].contains(&command.as_str()) {
        return Err(usage(&format!("{command:?} is no command")));
    }
    let mut found = Found::read(words)?;
    if found.flag("--help") {
        return Ok(Request::Help);
    }
    let request = found.request(&command)?;
    found.nothing_left(&command)?;
    Ok(request)
}

/// The words of a command, sorted.
struct Found {
    dirs: Vec<OsString>,
    flags: Vec<&'static str>,
    values: Vec<(&'static str, OsString)>,
}

impl Found {
    fn read(mut words: impl Iterator<Item = OsString>) -> Result<Found, Trouble> {
        let mut found = Found {
            dirs: Vec::new(),
            flags: Vec::new(),
            values: Vec::new(),
        };
        while let Some(word) = words.next() {
            if !word.as_encoded_bytes().starts_with(b"-") {
                found.dirs.push(word);
                continue;
            }
            match word.to_str().unwrap_or("") {
                "--out" => found.values.push(("--out", value("--out", words.next())?)),
                "--limit" => found
                    .values
                    .push(("--limit", value("--limit", words.next())?)),
                "--explain" => found.flags.push("--explain"),
                "--quiet" => found.flags.push("--quiet"),
                "--dot" => found.flags.push("--dot"),
                "--help" | "-h" => found.flags.push("--help"),
                _ => return Err(usage(&format!("{word:?} is no option"))),
            }
        }
        Ok(found)
    }

    fn request(&mut self, command: &str) -> Result<Request, Trouble> {
        let dir = self.dir(command)?;
        if command == "show" {
            let dot = self.flag("--dot");
            return Ok(Request::Show { dir, dot });
        }
        let say = self.say()?;
        if command == "validate" {
            return Ok(Request::Validate { dir, say });
        }
        let out = self.out(command)?;
        if command == "canonicalize" {
            return Ok(Request::Canonicalize { dir, out, say });
        }
        let limit = self.limit()?;
        Ok(Request::Merge {
            dir,
            out,
            limit,
            say,
        })
    }

    fn dir(&mut self, command: &str) -> Result<PathBuf, Trouble> {
        match self.dirs.len() {
            0 => Err(usage(&format!("{command} needs a folder, DIR"))),
            1 => Ok(PathBuf::from(self.dirs.remove(0))),
            _ => Err(usage(&format!(
                "{command} takes one folder, and {:?} is a second",
                self.dirs[1]
            ))),
        }
    }

    fn say(&mut self) -> Result<Say, Trouble> {
        match (self.flag("--explain"), self.flag("--quiet")) {
            (true, true) => Err(usage("--explain and --quiet exclude each other")),
            (true, false) => Ok(Say::Explained),
            (false, true) => Ok(Say::Nothing),
            (false, false) => Ok(Say::Numbers),
        }
    }

    fn out(&mut self, command: &str) -> Result<PathBuf, Trouble> {
        match self.value("--out") {
            Some(out) => Ok(PathBuf::from(out)),
            None => Err(usage(&format!("{command} needs --out OUT"))),
        }
    }

    fn limit(&mut self) -> Result<u32, Trouble> {
        let Some(word) = self.value("--limit") else {
            return Ok(MOST_LIMIT);
        };
        let number = word.to_str().and_then(|text| text.parse().ok());
        number.ok_or_else(|| {
            usage(&format!(
                "--limit takes a whole number, and {word:?} is none"
            ))
        })
    }

    fn flag(&mut self, name: &str) -> bool {
        let place = self.flags.iter().position(|flag| *flag == name);
        place.map(|at| self.flags.remove(at)).is_some()
    }

    fn value(&mut self, name: &str) -> Option<OsString> {
        let place = self.values.iter().position(|(known, _)| *known == name)?;
        Some(self.values.remove(place).1)
    }

    /// Trouble where an option is not the command's, or stands twice.
    fn nothing_left(&self, command: &str) -> Result<(), Trouble> {
        let mut names = self
            .flags
            .iter()
            .chain(self.values.iter().map(|(name, _)| name));
        match names.next() {
            Some(name) => Err(usage(&format!(
                "{command} does not take {name}, or not twice"
            ))),
            None => Ok(()),
        }
    }
}

fn value(name: &str, word: Option<OsString>) -> Result<OsString, Trouble> {
    match word {
        Some(word) if !word.as_encoded_bytes().starts_with(b"-") => Ok(word),
        _ => Err(usage(&format!("{name} needs a word behind it"))),
    }
}

fn usage(text: &str) -> Trouble {
    Trouble::new(format!("{text}; see forest --help"))
}
