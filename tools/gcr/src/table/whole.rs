//! Whether a text is all there: one that was cut on its way says another record, or none.

use super::header::Header;
use super::rows::Row;
use crate::text::Bad;
use gcr::{Edition, EVENTS_MOST};

/// Where the header has the number of events, they are held to it, and the last line ends: what writes the number ends
/// its lines too.
pub fn is_whole(header: &Header, events: &[Row], unended: Option<&Bad>) -> Result<(), Bad> {
    let Some(said) = header.events else { return Ok(()) };
    match unended {
        _ if said.value != events.len() as u64 => Err(said.word.bad(counts(said.value, events))),
        Some(cut) => Err(cut.clone()),
        None => Ok(()),
    }
}

fn counts(said: u64, events: &[Row]) -> String {
    let follow = match events {
        [] => "none follows".to_string(),
        [one] => format!("1 follows, in line {}", one.end.line),
        [.., last] => format!("{} follow, the last in line {}", events.len(), last.end.line),
    };
    let cut = if (events.len() as u64) < said { ": the text may be cut" } else { "" };
    format!("the number of events is {said}, and {follow}{cut}")
}

/// No record has more events, or none of this edition, and what they see may have no place in one.
pub fn are_not_too_many(edition: Edition, events: &[Row]) -> Result<(), Bad> {
    let (count, most) = (events.len(), edition.events_most());
    let told = |most: usize, record: String| match events.get(most) {
        Some(row) => Err(row.first().bad(format!("the text has {count} events, and a record{record}"))),
        None => Ok(()),
    };
    match Edition::ALL.iter().find(|other| other.events_most() >= count) {
        Some(other) => {
            told(most, format!(" of edition {edition} has at most {most}; one of {other} has room for them"))
        }
        None => told(EVENTS_MOST, format!(" has at most {EVENTS_MOST}")),
    }
}
