//! What was found of a record.

use super::verdicts::Verdict;
use crate::ending::Ending;
use gcr::Refusal;

pub struct Found<'a> {
    pub record: &'a str,
    pub outcome: Outcome<'a>,
}

pub enum Outcome<'a> {
    Judged(Judged),
    Refused(Refusal),
    /// Why the file was not read.
    Unread(&'a str),
}

pub struct Judged {
    /// How many the record has.
    pub events: u16,
    pub verdicts: Vec<Verdict>,
}

impl Found<'_> {
    pub fn ending(&self) -> Ending {
        match &self.outcome {
            Outcome::Judged(judged) if judged.verdicts.iter().all(|verdict| verdict.broken.is_none()) => Ending::Well,
            Outcome::Judged(_) => Ending::Broken,
            Outcome::Refused(_) => Ending::Refused,
            Outcome::Unread(_) => Ending::Failed,
        }
    }

    /// In one word, for programs.
    pub fn status(&self) -> &'static str {
        match self.ending() {
            Ending::Well => "met",
            Ending::Broken => "broken",
            Ending::Refused => "refused",
            Ending::Failed | Ending::Unclear => "unread",
        }
    }
}
