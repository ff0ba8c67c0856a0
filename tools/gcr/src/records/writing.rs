//! Writes what is told of records, and the summary at its place.

use super::progress::Progress;
use super::telling::{Layout, Teller, Told};
use crate::ending::Failure;
use crate::output::Output;
use std::io::{self, Write};

pub struct Writing {
    layout: Layout,
    /// How many there are.
    records: usize,
    output: Output,
    progress: Progress,
    is_begun: bool,
}

impl Writing {
    /// Of so many records.
    pub fn begun(teller: &impl Teller, records: usize) -> Result<Writing, Failure> {
        let (layout, output) = (teller.layout(), Output::standard()?);
        let mut writing = Writing { layout, records, output, progress: Progress::of(records), is_begun: false };
        writing.output.put(teller.head().as_bytes())?;
        Ok(writing)
    }

    /// Of the next record.
    pub fn take(&mut self, told: Result<Told, Failure>) -> Result<(), Failure> {
        match told {
            Ok(told) => self.put(&told.text)?,
            Err(failure) => {
                self.progress.clear();
                self.output.finish()?; // so that it stands in its order
                failure.told();
            }
        }
        self.progress.step(&mut self.output)
    }

    fn put(&mut self, text: &str) -> Result<(), Failure> {
        if text.is_empty() {
            return Ok(());
        }
        self.progress.clear();
        if self.is_begun {
            self.output.put(self.layout.between().as_bytes())?;
        }
        self.is_begun = true;
        self.output.put(text.as_bytes())
    }

    /// With the lines of the summary. Where one record was all, and its own line of the summary is all that there is to
    /// say of it, paragraphs do without.
    pub fn end(mut self, summary: &[String]) -> Result<(), Failure> {
        self.progress.clear();
        let is_plain = self.records == 1 && summary.len() == 1;
        let summary: String = summary.iter().map(|line| format!("{line}\n")).collect();
        match self.layout {
            Layout::Paragraphs if is_plain => self.output.finish(),
            Layout::Lines | Layout::Paragraphs => self.put(&summary).and_then(|()| self.output.finish()),
            Layout::Data => self.output.finish().and_then(|()| beside(&summary)),
        }
    }
}

/// On standard error. Where it cannot be written the status tells that something is missing.
fn beside(text: &str) -> Result<(), Failure> {
    let unwritten = |error| Failure::failed(format!("cannot write to standard error: {error}"));
    io::stderr().write_all(text.as_bytes()).map_err(unwritten)
}
