//! What a command tells of records.

use crate::ending::{Ending, Failure};

/// A command that tells of records one by one. Instead of telling, it may have a failure told on standard error; the
/// other records come all the same.
pub trait Teller: Sync {
    /// Of what was read under this name.
    fn read(&self, name: &str, bytes: &[u8]) -> Result<Told, Failure>;

    /// Of what could not be read, and why.
    fn unread(&self, name: &str, why: &str) -> Result<Told, Failure>;

    /// What records are judged by, in words.
    fn by(&self) -> String;

    fn layout(&self) -> Layout;

    /// Stands before all records.
    fn head(&self) -> &'static str {
        ""
    }
}

pub struct Told {
    /// Of this record alone.
    pub ending: Ending,
    /// Whole lines for standard output, or none.
    pub text: String,
}

/// How what is told of many records stands together.
#[derive(Clone, Copy, Debug, PartialEq, Eq)]
pub enum Layout {
    /// One after another, and a summary below.
    Lines,
    /// With empty lines between, and a summary where one record is not all that there is to tell of.
    Paragraphs,
    /// For programs: what is no record goes to standard error, and so does the summary.
    Data,
}

impl Layout {
    /// What stands between two.
    pub fn between(self) -> &'static str {
        match self {
            Layout::Paragraphs => "\n",
            Layout::Lines | Layout::Data => "",
        }
    }
}
