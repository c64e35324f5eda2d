//! The program's own trouble: one line for the person.

use std::fmt;
use std::path::Path;

#[derive(Debug)]
pub struct Trouble(String);

impl Trouble {
    pub fn new(text: impl Into<String>) -> Trouble {
        Trouble(text.into())
    }

    /// Trouble with a file or folder: which, and why.
    pub fn at(path: &Path, why: impl fmt::Display) -> Trouble {
        Trouble(format!("{}: {why}", path.display()))
    }
}

/// On one line, whatever a path holds.
impl fmt::Display for Trouble {
    fn fmt(&self, f: &mut fmt::Formatter) -> fmt::Result {
        for c in self.0.chars() {
            match c.is_control() {
                true => write!(f, "{}", c.escape_default())?,
                false => write!(f, "{c}")?,
            }
        }
        Ok(())
    }
}
