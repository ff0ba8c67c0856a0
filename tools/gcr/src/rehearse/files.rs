//! Where the record and the script's bytes go: beside the lines, or in their place.

use super::bytes;
use super::rehearsal::Rehearsal;
use super::script::Script;
use crate::ending::Failure;
use crate::output;
use crate::printable::printable;
use crate::source::Source;
use crate::words::Words;
use std::ffi::OsStr;

/// The options that name them.
pub const RECORD: &str = "-o";
pub const BYTES_TO: &str = "--bytes-to";

/// Those that were asked for.
pub struct Files<'a> {
    record: Option<&'a OsStr>,
    bytes: Option<&'a OsStr>,
}

impl<'a> Files<'a> {
    pub fn named(words: &'a Words, source: &Source) -> Result<Files<'a>, Failure> {
        let (record, bytes) = (words.made_of(source, RECORD)?, words.made_of(source, BYTES_TO)?);
        if record.zip(bytes).is_some_and(|(record, bytes)| output::is_one_place(record, bytes)) {
            return Err(words.unclear(&format!("{RECORD} and {BYTES_TO} name the same file")));
        }
        record.into_iter().chain(bytes).try_for_each(|to| words.spares_terminal(to))?;
        Ok(Files { record, bytes })
    }

    /// As it can be shown.
    pub fn record_name(&self) -> Option<String> {
        self.record.map(|name| printable(&name.to_string_lossy()))
    }

    pub fn is_standard_output_taken(&self) -> bool {
        [self.record, self.bytes].into_iter().flatten().any(output::is_standard)
    }

    pub fn save(&self, script: &Script, rehearsal: &Rehearsal) -> Result<(), Failure> {
        self.record.map_or(Ok(()), |to| output::saved(to, &rehearsal.record))?;
        self.bytes.map_or(Ok(()), |to| output::saved(to, &bytes::written(script)))
    }
}
