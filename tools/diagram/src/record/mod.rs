//! A record that passed the library's questions, with its relations.

mod event;

pub use event::Event;

use gcr::{Openings, Refusal};

pub struct Record {
    pub sites: usize,
    pub events: Vec<Event>,
    openings: Openings,
    /// The milliseconds by which the sites' clocks may differ.
    pub difference: u32,
}

impl From<gcr::Record> for Record {
    fn from(said: gcr::Record) -> Record {
        let events = said.events().map(|(_, event)| Event::from(event)).collect();
        let gcr::Record { sites, openings, difference, .. } = said;
        let mut record = Record { sites: sites.into(), events, openings, difference };
        for number in record.numbers() {
            record.events[number].holds_opening = record.holds_opening(number);
        }
        record
    }
}

impl Record {
    pub fn read(bytes: &[u8]) -> Result<Record, Refusal> {
        gcr::Record::read(bytes).map(Record::from)
    }

    /// What an object starts with, if it has an opening.
    pub fn opening(&self, object: u8) -> Option<u32> {
        self.openings.get(object)
    }

    /// Only of a read that sees no write on its object: any other value is from a write, though it may be the same.
    fn holds_opening(&self, number: usize) -> bool {
        let event = &self.events[number];
        let is_write_on_it = |&other: &usize| self.events[other].is_write && self.events[other].object == event.object;
        let sees_write = self.numbers().filter(is_write_on_it).any(|write| self.is_visible(write, number));
        !event.is_write && !sees_write && event.value.is_some() && event.value == self.opening(event.object)
    }

    /// The numbers of all events.
    pub fn numbers(&self) -> std::ops::Range<usize> {
        0..self.events.len()
    }

    /// All that the record says of an event.
    pub fn details(&self, number: usize) -> String {
        let seen: Vec<usize> = self.numbers().filter(|&other| self.is_visible(other, number)).collect();
        format!("{}, sees {}", self.events[number].details(number), listed(&seen))
    }

    /// vis: a is visible to b.
    pub fn is_visible(&self, a: usize, b: usize) -> bool {
        self.events[b].visible.contains(a as u16)
    }

    /// By how much the clocks of these two events may differ: one site's clock not at all.
    pub fn skew(&self, a: usize, b: usize) -> u32 {
        match self.events[a].site == self.events[b].site {
            true => 0,
            false => self.difference,
        }
    }
}

/// Rising numbers: `nothing`, `0, 2 and 5 to 9`.
fn listed(numbers: &[usize]) -> String {
    let run = |run: &[usize]| match run {
        [first, .., last] if last - first > 1 => vec![format!("{first} to {last}")],
        few => few.iter().map(usize::to_string).collect(),
    };
    let runs: Vec<String> = numbers.chunk_by(|one, next| one + 1 == *next).flat_map(run).collect();
    match runs.split_last() {
        None => "nothing".to_string(),
        Some((last, [])) => last.clone(),
        Some((last, others)) => format!("{} and {last}", others.join(", ")),
    }
}

#[cfg(test)]
mod tests {
    use super::*;

    #[test]
    fn numbers_in_turn_are_told_by_their_ends() {
        assert_eq!(listed(&[]), "nothing");
        assert_eq!(listed(&[3]), "3");
        assert_eq!(listed(&[3, 4]), "3 and 4");
        assert_eq!(listed(&[0, 2, 5, 6, 7, 8, 9]), "0, 2 and 5 to 9");
    }
}
