//! The reader's refusals in a table's words. It is the proved reader that refuses: what it named is looked at once more
//! to say which cell that is about, and where nothing is found its own sentence stays.

mod head;
mod positions;
mod slots;
mod visible;

use super::events::EventRow;
use super::Table;
use crate::text::Bad;
use gcr::{Event, Refusal};

/// The event that a refusal is about.
struct Refused<'t, 'a> {
    table: &'t Table<'a>,
    number: u16,
    event: &'t Event,
    row: EventRow<'t, 'a>,
}

impl<'a> Table<'a> {
    /// Why the reader refused the record, and where that stands in the text.
    pub fn refused(&self, refusal: Refusal) -> String {
        let Refusal { number, place } = refusal;
        let with_number = |bad: Bad| Bad { what: format!("refused {number} {place}: {}", bad.what), ..bad };
        let why = match number {
            5 => head::why(&self.record, &self.header),
            7..=10 => self.about(refusal).map(|about| about.why(number).unwrap_or_else(|| about.at_row(refusal))),
            _ => None,
        };
        why.map_or_else(|| refusal.to_string(), |bad| with_number(bad).to_string())
    }

    fn about(&self, refusal: Refusal) -> Option<Refused<'_, 'a>> {
        let number = u16::try_from(refusal.place).ok()?;
        let (event, row) = (self.record.event(number)?, self.row(number.into())?);
        Some(Refused { table: self, number, event, row })
    }
}

impl Refused<'_, '_> {
    fn why(&self, question: u32) -> Option<Bad> {
        match question {
            7 => self.no_slot(),
            8 => self.no_position(),
            9 => self.sees_wrongly(),
            _ => self.sees_itself_through_others(),
        }
    }

    /// The reader's own sentence.
    fn at_row(&self, refusal: Refusal) -> Bad {
        self.row.row.first().bad(refusal.sentence())
    }
}

/// A number of something of which the record has so many, 1 or more.
fn no_such(what: &str, number: u16, count: usize) -> String {
    let there = if count == 1 { format!("{what} 0 alone") } else { format!("{what}s 0 to {}", count - 1) };
    format!("there is no {what} {number}: the record has {there}")
}
