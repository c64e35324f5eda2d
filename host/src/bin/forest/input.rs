//! The files of a folder, each read once.

use crate::trouble::Trouble;
use forest_merge::counted;
use forest_merge::record::ROOT_SIZE;
use std::fs;
use std::path::Path;

/// A file's bytes.
pub fn bytes(dir: &Path, name: &str) -> Result<Vec<u8>, Trouble> {
    let path = dir.join(name);
    fs::read(&path).map_err(|error| Trouble::at(&path, error))
}

/// The numbers in the file `roots`.
pub fn roots(dir: &Path) -> Result<Vec<u32>, Trouble> {
    let bytes = bytes(dir, "roots")?;
    let path = dir.join("roots");
    if bytes.len() % ROOT_SIZE != 0 {
        let length = counted(bytes.len() as u64, "byte");
        let why =
            format!("its length, {length}, is not a whole number of roots of {ROOT_SIZE} bytes");
        return Err(Trouble::at(&path, why));
    }
    let mut roots = Vec::new();
    roots
        .try_reserve_exact(bytes.len() / ROOT_SIZE)
        .map_err(|error| Trouble::at(&path, error))?;
    let words = bytes.chunks_exact(ROOT_SIZE);
    roots.extend(words.map(|word| u32::from_le_bytes([word[0], word[1], word[2], word[3]])));
    Ok(roots)
}
