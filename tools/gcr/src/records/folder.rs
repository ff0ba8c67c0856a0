//! What stands in a folder.

use super::natural;
use std::ffi::OsString;
use std::fs::{self, DirEntry};
use std::io;
use std::path::Path;

pub struct Entry {
    pub name: OsString,
    /// A folder itself, and no link to one.
    pub is_folder: bool,
}

/// In the order in which people put names.
pub fn entries(folder: &Path) -> io::Result<Vec<Entry>> {
    let entry = |entry: io::Result<DirEntry>| {
        let entry = entry?;
        Ok(Entry { is_folder: entry.file_type()?.is_dir(), name: entry.file_name() })
    };
    let mut entries = fs::read_dir(folder)?.map(entry).collect::<io::Result<Vec<Entry>>>()?;
    entries.sort_by(|one, other| natural::order(&one.name, &other.name));
    Ok(entries)
}

impl Entry {
    /// In large or small letters.
    pub fn is_named_as_record(&self) -> bool {
        self.name.to_string_lossy().to_ascii_lowercase().ends_with(".gcr")
    }
}
