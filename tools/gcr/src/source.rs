//! Where bytes come from, and by what name.

use crate::ending::Failure;
use crate::printable::printable;
use std::ffi::OsStr;
use std::fmt::Display;
use std::fs::File;
use std::io::{self, Read};
use std::path::{Path, PathBuf};

#[derive(Clone, Debug, PartialEq, Eq, PartialOrd, Ord)]
pub enum Source {
    StandardInput,
    File(PathBuf),
}

impl Source {
    /// `-` is standard input.
    pub fn named(word: &OsStr) -> Source {
        match word == "-" {
            true => Source::StandardInput,
            false => Source::File(word.into()),
        }
    }

    /// As it was given, with its folders.
    pub fn name(&self) -> String {
        match self {
            Source::StandardInput => "standard input".to_string(),
            Source::File(path) => printable(&path.to_string_lossy()),
        }
    }

    /// Without its folders.
    pub fn short_name(&self) -> String {
        match self {
            Source::StandardInput => self.name(),
            Source::File(path) => printable(&path.file_name().unwrap_or(path.as_os_str()).to_string_lossy()),
        }
    }

    /// At most so many bytes. Of a record one more than the longest has is enough to have a longer one refused.
    pub fn read(&self, most: usize) -> io::Result<Vec<u8>> {
        match self {
            Source::StandardInput => start_of(io::stdin(), most),
            Source::File(path) => File::open(path).and_then(|file| start_of(file, most)),
        }
    }

    /// The same; what cannot be read ends the command.
    pub fn bytes(&self, most: usize) -> Result<Vec<u8>, Failure> {
        self.read(most).map_err(|error| unread(&self.name(), error))
    }

    pub fn path(&self) -> Option<&Path> {
        match self {
            Source::StandardInput => None,
            Source::File(path) => Some(path),
        }
    }
}

/// Why there is nothing of this name.
pub fn unread(name: &str, why: impl Display) -> Failure {
    Failure::failed(format!("cannot read {name}: {why}"))
}

fn start_of(input: impl Read, most: usize) -> io::Result<Vec<u8>> {
    let mut bytes = Vec::new();
    input.take(most as u64).read_to_end(&mut bytes)?;
    Ok(bytes)
}

#[cfg(test)]
mod tests {
    use super::*;

    #[test]
    fn a_source_is_named_by_its_file_or_is_the_standard_input() {
        let names = |word: &str| (Source::named(word.as_ref()).name(), Source::named(word.as_ref()).short_name());
        assert_eq!(names("-"), ("standard input".to_string(), "standard input".to_string()));
        assert_eq!(names("records/a b.gcr"), ("records/a b.gcr".to_string(), "a b.gcr".to_string()));
    }
}
