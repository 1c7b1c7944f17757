//! The session folders of a directory.

use crate::told::is_told_in_full;
use std::fs;
use std::io::{self, ErrorKind};
use std::path::Path;

/// A session as it stands in its folder.
pub struct Folder {
    pub name: String,
    /// Empty where there is no `plan.bin`.
    pub plan: Vec<u8>,
    pub events: Vec<u8>,
    pub expected: Vec<u8>,
}

impl Folder {
    fn size(&self) -> usize {
        self.plan.len() + self.events.len()
    }

    /// True if its `session.txt` leaves nothing out.
    pub fn is_told_in_full(&self) -> bool {
        is_told_in_full(&self.plan, &self.events)
    }
}

/// Every session of a directory, the smallest first.
pub fn all(directory: &Path) -> io::Result<Vec<Folder>> {
    let mut folders = Vec::new();
    for entry in fs::read_dir(directory)? {
        let folder = entry?.path();
        if !folder.is_dir() {
            continue;
        }
        let name = folder.file_name().unwrap_or_default();
        // Each has its text for a person.
        let text = folder.join("session.txt");
        if !text.is_file() {
            let words = format!("there is no {}", text.display());
            return Err(io::Error::new(ErrorKind::NotFound, words));
        }
        folders.push(Folder {
            name: name.to_string_lossy().into_owned(),
            plan: fs::read(folder.join("plan.bin")).unwrap_or_default(),
            events: read(&folder.join("events.bin"))?,
            expected: read(&folder.join("expected.txt"))?,
        });
    }
    if folders.is_empty() {
        return Err(io::Error::new(ErrorKind::NotFound, "there are none"));
    }
    folders.sort_by_key(|folder| (folder.size(), folder.name.clone()));
    Ok(folders)
}

/// A file that must be there; the error names it.
fn read(path: &Path) -> io::Result<Vec<u8>> {
    let words = |error: io::Error| format!("{}: {error}", path.display());
    fs::read(path).map_err(|error| io::Error::new(error.kind(), words(error)))
}

/// Those that are told in full.
pub fn in_full(directory: &Path) -> io::Result<Vec<Folder>> {
    let folders = all(directory)?.into_iter();
    Ok(folders.filter(Folder::is_told_in_full).collect())
}
