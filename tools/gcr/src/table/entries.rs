//! What header rows may say.

use super::rows::Row;
use crate::text::{Bad, Word};

#[derive(Clone, Copy, PartialEq, Eq)]
pub enum Entry {
    Edition,
    Sites,
    Clocks,
    Opening,
    Events,
}

impl Entry {
    const ALL: [Entry; 5] = [Entry::Edition, Entry::Sites, Entry::Clocks, Entry::Opening, Entry::Events];

    /// The word that its row begins with.
    pub fn name(self) -> &'static str {
        match self {
            Entry::Edition => "edition",
            Entry::Sites => "sites",
            Entry::Clocks => "clocks",
            Entry::Opening => "opening",
            Entry::Events => "events",
        }
    }

    pub fn names() -> Vec<&'static str> {
        Entry::ALL.into_iter().map(Entry::name).collect()
    }

    pub fn named(word: Word) -> Option<Entry> {
        Entry::ALL.into_iter().find(|entry| word.is(entry.name()))
    }

    /// What comes after the name.
    fn values(self) -> &'static [&'static str] {
        match self {
            Entry::Edition => &["edition"],
            Entry::Sites => &["number of sites"],
            Entry::Clocks => &["difference of clocks"],
            Entry::Opening => &["object", "value"],
            Entry::Events => &["number of events"],
        }
    }

    /// What comes after the name in its row, if that is as much as there should be.
    pub fn takes<'r, 'a>(self, row: &'r Row<'a>) -> Result<&'r [Word<'a>], Bad> {
        let (expected, values) = (self.values(), row.filled().get(1..).unwrap_or_default());
        match (expected.get(values.len()), values.get(expected.len())) {
            (Some(missing), _) => Err(row.first().bad(format!("after {} comes the {missing}", self.name()))),
            (_, Some(more)) => Err(more.bad(format!("after {} this is too much", self.name()))),
            _ => Ok(values),
        }
    }
}
