//! Why there is no picture.

use gcr::Refusal;
use std::fmt;

#[derive(Clone, Copy, Debug, PartialEq, Eq)]
pub enum Undrawn {
    /// The record does not pass its questions.
    Refused(Refusal),
    /// The part names an event that the record does not have.
    NoEvent { event: usize, count: usize },
    /// The part names a site that the record does not have.
    NoSite { site: usize, sites: usize },
    /// No event is of the part.
    Nothing,
}

impl From<Refusal> for Undrawn {
    fn from(refusal: Refusal) -> Undrawn {
        Undrawn::Refused(refusal)
    }
}

impl fmt::Display for Undrawn {
    fn fmt(&self, f: &mut fmt::Formatter<'_>) -> fmt::Result {
        match self {
            Undrawn::Refused(refusal) => refusal.fmt(f),
            Undrawn::NoEvent { event, count } => write!(f, "there is no event {event}: {}", has(*count, "event")),
            Undrawn::NoSite { site, sites } => write!(f, "there is no site {site}: {}", has(*sites, "site")),
            Undrawn::Nothing => write!(f, "no event is of the part that is asked for, so there is nothing to draw"),
        }
    }
}

impl std::error::Error for Undrawn {}

fn has(count: usize, what: &str) -> String {
    match count {
        0 => format!("the record has no {what}s"),
        1 => format!("the record has {what} 0 alone"),
        _ => format!("the record has {what}s 0 to {}", count - 1),
    }
}
