//! The records that were named: files, folders and standard input.

use super::few::Few;
use super::folder::{entries, Entry};
use crate::ending::Failure;
use crate::options::Opt;
use crate::source::Source;
use crate::words::Words;
use std::ffi::OsStr;
use std::fs;
use std::path::{Path, PathBuf};

pub const RECURSIVE: Opt = Opt::flag("--recursive", "looks into folders in folders too");

/// What is judged, in the order in which it was named, a folder's by their names.
#[derive(Default)]
pub struct Records {
    pub all: Vec<Named>,
    pub passed_over: PassedOver,
    /// Whether folders in folders are looked into.
    is_recursive: bool,
}

pub struct Named {
    pub source: Source,
    /// Why it cannot be read, where that is known.
    fault: Option<String>,
}

/// What folders have beside records.
#[derive(Default)]
pub struct PassedOver {
    names: Few,
    folders: Few,
}

impl Named {
    /// At most so many bytes, or why there are none.
    pub fn read(&self, most: usize) -> Result<Vec<u8>, String> {
        match &self.fault {
            Some(fault) => Err(fault.clone()),
            None => self.source.read(most).map_err(|error| error.to_string()),
        }
    }

    fn faulty(path: PathBuf, fault: impl ToString) -> Named {
        Named { source: Source::File(path), fault: Some(fault.to_string()) }
    }

    /// Nobody has named it, so it has to be a file: reading a pipe might never end.
    fn of_folder(path: PathBuf) -> Named {
        match fs::metadata(&path) {
            Ok(there) if !there.is_file() => Named::faulty(path, "this is no file"),
            _ => Source::File(path).into(),
        }
    }
}

impl From<Source> for Named {
    fn from(source: Source) -> Named {
        Named { source, fault: None }
    }
}

impl PassedOver {
    /// A line for each kind.
    pub fn remarks(&self) -> Vec<String> {
        let (one, more) =
            ("name does not end in .gcr and was passed over", "names do not end in .gcr and were passed over");
        let names = self.names.remark(one, more);
        let folders = self.folders.remark("folder in a folder was passed over", "folders in folders were passed over");
        names.into_iter().chain(folders).collect()
    }
}

impl Records {
    pub fn named(words: &Words) -> Result<Records, Failure> {
        let mut records = Records { is_recursive: words.has(RECURSIVE.name), ..Records::default() };
        if words.files.is_empty() {
            records.all.push(words.standard_input()?.into());
        }
        if words.files.iter().filter(|word| *word == "-").count() > 1 {
            return Err(words.unclear("standard input can be read once"));
        }
        words.files.iter().for_each(|word| records.take(word));
        Ok(records)
    }

    fn take(&mut self, word: &OsStr) {
        match Source::named(word) {
            Source::File(path) if path.is_dir() => self.take_folder(&path),
            source => self.all.push(source.into()),
        }
    }

    fn take_folder(&mut self, folder: &Path) {
        let entries = match entries(folder) {
            Ok(entries) => entries,
            Err(error) => return self.all.push(Named::faulty(folder.into(), error)),
        };
        let taken = entries.into_iter().filter(|entry| self.takes(folder, entry)).count();
        if taken == 0 {
            self.all.push(Named::faulty(folder.into(), "nothing in this folder ends in .gcr"));
        }
    }

    /// Whether it is a record, or a folder that is looked into. Links to folders are not, for they may lead in a ring.
    fn takes(&mut self, folder: &Path, entry: &Entry) -> bool {
        let path = folder.join(&entry.name);
        if entry.is_folder && self.is_recursive {
            self.take_folder(&path);
            return true;
        }
        if entry.is_named_as_record() {
            self.all.push(Named::of_folder(path));
            return true;
        }
        let others = if path.is_dir() { &mut self.passed_over.folders } else { &mut self.passed_over.names };
        others.add(|| Source::File(path).name());
        false
    }
}
