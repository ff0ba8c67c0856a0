//! Judges what was read, and writes what was found in one of the forms.

use super::asked::{names, Question};
use super::form::Form;
use super::found::{Found, Judged, Outcome};
use super::verdicts::{verdicts, with_events, Breaks};
use crate::ending::{Ending, Failure};
use crate::records::{Layout, Teller, Told};
use gcr::{count, Refusal};

pub struct Judging {
    pub questions: Vec<Question>,
    pub breaks: Breaks,
    pub form: Form,
    /// Whether nothing is told of what is met.
    pub is_quiet: bool,
}

impl Judging {
    fn judged(&self, record: &[u8]) -> Result<Judged, Refusal> {
        let verdicts = verdicts(record, &self.questions, self.breaks)?;
        let verdicts = if self.form.has_events() { with_events(record, verdicts)? } else { verdicts };
        Ok(Judged { events: count(record), verdicts })
    }

    fn told(&self, found: &Found) -> Told {
        let ending = found.ending();
        let is_told = !(self.is_quiet && ending == Ending::Well);
        Told { ending, text: if is_told { self.form.of(found) } else { String::new() } }
    }
}

impl Teller for Judging {
    fn read(&self, record: &str, bytes: &[u8]) -> Result<Told, Failure> {
        let outcome = self.judged(bytes).map_or_else(Outcome::Refused, Outcome::Judged);
        Ok(self.told(&Found { record, outcome }))
    }

    fn unread(&self, record: &str, why: &str) -> Result<Told, Failure> {
        Ok(self.told(&Found { record, outcome: Outcome::Unread(why) }))
    }

    fn by(&self) -> String {
        names(&self.questions)
    }

    fn layout(&self) -> Layout {
        self.form.layout()
    }

    fn head(&self) -> &'static str {
        self.form.head()
    }
}
