//! What the records have to be together, beside what each has to meet.

use crate::ending::Failure;
use crate::options::{Kind, Opt};
use crate::text::number;
use crate::unknown::shown;
use crate::words::Words;
use std::ffi::OsStr;

pub const EXPECT: Opt =
    Opt::with("--expect", "N", Kind::Number, "any other number of records, judged or refused, is status 3");
pub const STRICT: Opt =
    Opt::flag("--strict", "so are names and folders passed over, records without events, and the same bytes twice");

pub struct Demands {
    /// How many are to be read.
    expected: Option<u64>,
    /// Whether there may be nothing to remark.
    is_strict: bool,
}

impl Demands {
    pub fn asked(words: &Words) -> Result<Demands, Failure> {
        let count = |word: &OsStr| {
            let word = word.to_string_lossy();
            let is_none =
                || words.unclear(&format!("--expect takes a number of records, and {} is none", shown(&word)));
            number(&word).ok_or_else(is_none)
        };
        let expected = words.one(EXPECT.name).map(count).transpose()?;
        Ok(Demands { expected, is_strict: words.has(STRICT.name) })
    }

    /// A sentence for each that is not met, of so many records that were read.
    pub fn unmet(&self, read: usize, has_remarks: bool) -> Vec<String> {
        let strict =
            (self.is_strict && has_remarks).then(|| "--strict allows none of this: the status is 3".to_string());
        let other = self.expected.filter(|&expected| expected != read as u64);
        let count = |count: u64| format!("{count} {}", if count == 1 { "record was" } else { "records were" });
        let were = if read == 1 { "was" } else { "were" };
        let expected = other.map(|other| format!("{} expected, and {read} {were} read: the status is 3", count(other)));
        strict.into_iter().chain(expected).collect()
    }
}
