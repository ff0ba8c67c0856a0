//! The editions of the record format.

use core::fmt;

/// Which edition a record is of, by its first four letters.
#[derive(Clone, Copy, Debug, PartialEq, Eq, Hash, PartialOrd, Ord)]
#[non_exhaustive]
pub enum Edition {
    /// It has neither openings nor a difference of clocks, and at most 256 events.
    Gcr1,
    /// It has both, and at most 256 events.
    Gcr2,
    /// It has both, and at most 384 events. A rehearsal writes it.
    Gcr3,
}

impl Edition {
    /// All of them, the first one first.
    pub const ALL: &'static [Edition] = &[Edition::Gcr1, Edition::Gcr2, Edition::Gcr3];

    /// The letters that a record of it begins with.
    ///
    /// ```
    /// assert_eq!(gcr::Edition::Gcr2.letters(), "GCR2");
    /// ```
    pub const fn letters(self) -> &'static str {
        match self {
            Edition::Gcr1 => "GCR1",
            Edition::Gcr2 => "GCR2",
            Edition::Gcr3 => "GCR3",
        }
    }

    /// The most events that a record of it has.
    ///
    /// ```
    /// use gcr::{Edition, EVENTS_MOST};
    ///
    /// assert_eq!(Edition::Gcr2.events_most(), 256);
    /// assert_eq!(Edition::Gcr3.events_most(), EVENTS_MOST);
    /// ```
    pub const fn events_most(self) -> usize {
        match self {
            Edition::Gcr1 | Edition::Gcr2 => 256,
            Edition::Gcr3 => 384,
        }
    }

    /// Whether block 0 has openings and a difference of clocks.
    pub const fn has_terms(self) -> bool {
        match self {
            Edition::Gcr1 => false,
            Edition::Gcr2 | Edition::Gcr3 => true,
        }
    }

    /// Of a record that begins so.
    pub(crate) fn of(record: &[u8]) -> Option<Edition> {
        let begins = |edition: &&Edition| record.starts_with(edition.letters().as_bytes());
        Edition::ALL.iter().find(begins).copied()
    }
}

/// Its letters.
impl fmt::Display for Edition {
    fn fmt(&self, f: &mut fmt::Formatter<'_>) -> fmt::Result {
        f.write_str(self.letters())
    }
}

/// From its letters, large or small.
///
/// # Errors
///
/// Where they are of no edition.
impl core::str::FromStr for Edition {
    type Err = crate::UnknownName;

    fn from_str(letters: &str) -> Result<Edition, crate::UnknownName> {
        let found = Edition::ALL.iter().find(|edition| edition.letters().eq_ignore_ascii_case(letters));
        found.copied().ok_or(crate::UnknownName)
    }
}
