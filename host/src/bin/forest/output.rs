//! The folder OUT, written whole or not at all.

use crate::trouble::Trouble;
use forest_merge::record::NODE_SIZE;
use forest_merge::Forest;
use std::ffi::OsStr;
use std::fs::{self, File};
use std::io::{self, ErrorKind, Write};
use std::path::{Path, PathBuf};
use std::process;

/// The files of OUT.
const FILES: [&str; 4] = ["table", "nodes", "roots", "ids"];

/// How many names are tried for the temporary folder.
const TRIES: usize = 100;

/// How many words are turned into bytes at a time.
const WORDS: usize = 16_384;

/// Where a result goes.
pub struct Target {
    parent: PathBuf,
    path: PathBuf,
}

impl Target {
    /// A folder that may be made or replaced, and that is not the folder of the input.
    pub fn new(out: &Path, input: &Path) -> Result<Target, Trouble> {
        let Some(name) = out.file_name() else {
            return Err(Trouble::at(out, "OUT must end with the name of a folder"));
        };
        let parent = match out.parent() {
            Some(parent) if parent != Path::new("") => parent.to_path_buf(),
            _ => PathBuf::from("."),
        };
        let found = fs::metadata(&parent).map_err(|error| Trouble::at(&parent, error))?;
        if !found.is_dir() {
            return Err(Trouble::at(
                &parent,
                "OUT is to be made there, and it is no folder",
            ));
        }
        let path = parent.join(name);
        let target = Target { parent, path };
        target.apart_from(input)?;
        target.exists()?;
        Ok(target)
    }

    fn apart_from(&self, input: &Path) -> Result<(), Trouble> {
        match (fs::canonicalize(&self.path), fs::canonicalize(input)) {
            (Ok(out), Ok(dir)) if out == dir => {
                Err(Trouble::at(&self.path, "OUT and DIR are the same folder"))
            }
            _ => Ok(()),
        }
    }

    /// Whether OUT is there; trouble if it may not be replaced.
    fn exists(&self) -> Result<bool, Trouble> {
        let trouble = |error| Trouble::at(&self.path, error);
        match fs::symlink_metadata(&self.path) {
            Err(error) if error.kind() == ErrorKind::NotFound => return Ok(false),
            Err(error) => return Err(trouble(error)),
            Ok(found) if !found.is_dir() => {
                return Err(Trouble::at(&self.path, "OUT exists and is no folder"));
            }
            Ok(_) => {}
        }
        for entry in fs::read_dir(&self.path).map_err(trouble)? {
            let entry = entry.map_err(trouble)?;
            let file = entry.file_type().map_err(trouble)?.is_file();
            if !file || !known(&entry.file_name()) {
                let why = "OUT exists and holds this, so it is not replaced";
                return Err(Trouble::at(&entry.path(), why));
            }
        }
        Ok(true)
    }

    /// Writes a result and puts it into place.
    pub fn write(&self, result: &Forest) -> Result<(), Trouble> {
        let mut stage = Stage::new(&self.parent)?;
        fill(&stage.fresh, result)?;
        if self.exists()? {
            stage.swap(&self.path)?;
        } else {
            stage.place(&self.path)?;
        }
        sync(&self.parent);
        Ok(())
    }
}

/// A temporary folder with the new OUT and, while they change places, the old one. It goes away with this value.
struct Stage {
    folder: PathBuf,
    fresh: PathBuf,
    old: PathBuf,
    kept: bool,
}

impl Stage {
    fn new(parent: &Path) -> Result<Stage, Trouble> {
        let folder = fresh_folder(parent)?;
        let stage = Stage {
            fresh: folder.join("new"),
            old: folder.join("old"),
            folder,
            kept: false,
        };
        fs::create_dir(&stage.fresh).map_err(|error| Trouble::at(&stage.fresh, error))?;
        Ok(stage)
    }

    /// Makes the new folder OUT.
    fn place(&self, out: &Path) -> Result<(), Trouble> {
        fs::rename(&self.fresh, out).map_err(|error| Trouble::at(out, error))
    }

    /// Makes the new folder OUT where there is one; if it fails, the old one is put back.
    fn swap(&mut self, out: &Path) -> Result<(), Trouble> {
        fs::rename(out, &self.old).map_err(|error| Trouble::at(out, error))?;
        let Err(trouble) = self.place(out) else {
            return Ok(());
        };
        if fs::rename(&self.old, out).is_err() {
            self.kept = true;
            let why = format!("{trouble}; what it held is in {}", self.old.display());
            return Err(Trouble::new(why));
        }
        Err(trouble)
    }
}

impl Drop for Stage {
    fn drop(&mut self) {
        if !self.kept {
            discard(&self.fresh);
            discard(&self.old);
        }
        // What cannot be removed stays: it does no harm, and there is nobody to tell.
        let _ = fs::remove_dir(&self.folder);
    }
}

/// Makes a folder that was not there, beside OUT.
fn fresh_folder(parent: &Path) -> Result<PathBuf, Trouble> {
    let pid = process::id();
    for attempt in 0..TRIES {
        let folder = parent.join(format!(".forest-{pid}-{attempt}"));
        match fs::create_dir(&folder) {
            Ok(()) => return Ok(folder),
            Err(error) if error.kind() == ErrorKind::AlreadyExists => {}
            Err(error) => return Err(Trouble::at(&folder, error)),
        }
    }
    Err(Trouble::at(
        parent,
        "no name is free for a temporary folder",
    ))
}

/// Writes the four files.
fn fill(folder: &Path, result: &Forest) -> Result<(), Trouble> {
    let row = [result.nodes.len() / NODE_SIZE, result.roots.len()];
    // Both counts are at most those of the input, which a table row holds.
    let row = row.map(|count| u32::try_from(count).unwrap_or(u32::MAX));
    file(folder, "table", |out| words(out, &row))?;
    file(folder, "nodes", |out| out.write_all(&result.nodes))?;
    file(folder, "roots", |out| words(out, &result.roots))?;
    file(folder, "ids", |out| words(out, &result.ids))?;
    sync(folder);
    Ok(())
}

/// Writes a file, to the disk.
fn file(
    folder: &Path,
    name: &str,
    write: impl FnOnce(&mut File) -> io::Result<()>,
) -> Result<(), Trouble> {
    let path = folder.join(name);
    let written = File::create_new(&path).and_then(|mut out| {
        write(&mut out)?;
        out.sync_all()
    });
    written.map_err(|error| Trouble::at(&path, error))
}

/// Writes words, the lowest byte first.
fn words(out: &mut File, words: &[u32]) -> io::Result<()> {
    let mut bytes = Vec::with_capacity(4 * WORDS.min(words.len()));
    for some in words.chunks(WORDS) {
        bytes.clear();
        bytes.extend(some.iter().flat_map(|word| word.to_le_bytes()));
        out.write_all(&bytes)?;
    }
    Ok(())
}

/// Brings a folder's names to the disk, where the file system can.
fn sync(folder: &Path) {
    let _ = File::open(folder).and_then(|folder| folder.sync_all());
}

/// Removes a folder and the files of OUT in it, and nothing else.
fn discard(folder: &Path) {
    for name in FILES {
        let _ = fs::remove_file(folder.join(name));
    }
    let _ = fs::remove_dir(folder);
}

fn known(name: &OsStr) -> bool {
    FILES.iter().any(|file| name == OsStr::new(file))
}
