//! The rows before the columns: what a record says beside its events.

use super::entries::Entry;
use super::rows::Row;
use crate::openings;
use crate::text::{Bad, Word};
use gcr::{Edition, Openings, Record};
use std::ops::RangeInclusive;
use std::str::FromStr;

/// How many sites a record may have.
pub const SITES: RangeInclusive<u8> = 1..=8;

/// What a row says, and the word that says it.
#[derive(Clone, Copy)]
pub struct Said<'a, T> {
    pub value: T,
    pub word: Word<'a>,
}

/// What was said so far.
#[derive(Default)]
pub struct Header<'a> {
    edition: Option<Said<'a, Edition>>,
    pub sites: Option<Said<'a, u8>>,
    pub clocks: Option<Said<'a, u32>>,
    openings: Openings,
    /// The object of the first.
    pub opening: Option<Word<'a>>,
    pub events: Option<Said<'a, u64>>,
}

impl<'a> Header<'a> {
    /// One row more.
    pub fn take(&mut self, entry: Entry, row: &Row<'a>) -> Result<(), Bad> {
        let (name, values) = (row.first(), entry.takes(row)?);
        match entry {
            Entry::Edition => once(&mut self.edition, name, values[0], edition),
            Entry::Sites => once(&mut self.sites, name, values[0], sites),
            Entry::Clocks => once(&mut self.clocks, name, values[0], difference),
            Entry::Events => once(&mut self.events, name, values[0], events),
            Entry::Opening => {
                self.openings = openings::opened(self.openings, values[0], values[1])?;
                self.opening.get_or_insert(values[0]);
                Ok(())
            }
        }
    }

    /// A record without events yet. How many sites there are cannot be told by those that did something.
    pub fn record(&self, columns: Word) -> Result<Record, Bad> {
        let missing =
            || columns.bad("the number of sites is missing: sites and the number stand in a row before the columns");
        let mut record = Record::new(self.edition(0), self.sites.ok_or_else(missing)?.value);
        record.difference = self.clocks.map_or(0, |said| said.value);
        record.openings = self.openings;
        Ok(record)
    }

    /// Of a record with so many events. Where none is said it is the second, which readers have known for longer, unless
    /// there are more events than it has.
    pub fn edition(&self, events: usize) -> Edition {
        match self.edition {
            Some(said) => said.value,
            None if events <= Edition::Gcr2.events_most() => Edition::Gcr2,
            None => Edition::Gcr3,
        }
    }

    /// What is to be said where the events alone made it a later edition than the second.
    pub fn grown(&self, events: usize) -> Option<String> {
        let edition = self.edition(events);
        let is_grown = self.edition.is_none() && edition != Edition::Gcr2;
        is_grown.then(|| {
            format!("{events} events: the record is of edition {edition}, which readers before version 0.8 refuse")
        })
    }
}

fn once<'a, T>(
    place: &mut Option<Said<'a, T>>,
    name: Word,
    word: Word<'a>,
    read: fn(Word) -> Result<T, Bad>,
) -> Result<(), Bad> {
    match place.replace(Said { value: read(word)?, word }) {
        Some(first) => Err(name.bad(format!("{} is said twice, first in line {}", name.shown(), first.word.line))),
        None => Ok(()),
    }
}

fn edition(word: Word) -> Result<Edition, Bad> {
    let letters = Edition::ALL.iter().map(|edition| edition.letters()).collect();
    Edition::from_str(word.text).map_err(|_| word.unknown(&[("edition", letters)]))
}

fn sites(word: Word) -> Result<u8, Bad> {
    word.at_most(u8::MAX.into()).map(|sites| sites as u8).ok_or_else(|| no_sites(word))
}

/// No record has so many.
pub fn no_sites(word: Word) -> Bad {
    word.beyond("number of sites", &format!("{} to {}", SITES.start(), SITES.end()))
}

fn difference(word: Word) -> Result<u32, Bad> {
    word.number("difference of clocks", u32::MAX.into()).map(|difference| difference as u32)
}

fn events(word: Word) -> Result<u64, Bad> {
    word.number("number of events", u64::MAX)
}

/// The rows that say it. How many events follow is the last that is said before them.
pub fn rows(record: &Record) -> Vec<Vec<String>> {
    let row = |entry: Entry, values: &[u64]| {
        let values = values.iter().map(u64::to_string);
        [entry.name().to_string()].into_iter().chain(values).collect::<Vec<_>>()
    };
    let mut rows = vec![vec![Entry::Edition.name().to_string(), record.edition.letters().to_string()]];
    rows.push(row(Entry::Sites, &[record.sites.into()]));
    if record.edition.has_terms() {
        rows.push(row(Entry::Clocks, &[record.difference.into()]));
    }
    let opening = |(object, value): (u8, u32)| row(Entry::Opening, &[object.into(), value.into()]);
    rows.extend(openings::all(&record.openings).map(opening));
    rows.push(row(Entry::Events, &[record.count() as u64]));
    rows
}
