//! The records that ship with the repository.

use std::fs;
use std::path::Path;

/// Each with its name.
pub fn shipped() -> Vec<(String, Vec<u8>)> {
    let folder = Path::new(env!("CARGO_MANIFEST_DIR")).join("../../records");
    let files = fs::read_dir(folder).unwrap().map(|entry| entry.unwrap().path());
    let records = files.filter(|path| path.extension().is_some_and(|extension| extension == "gcr"));
    let records: Vec<_> = records.map(|path| (path.display().to_string(), fs::read(&path).unwrap())).collect();
    assert!(records.len() > 10);
    records
}
