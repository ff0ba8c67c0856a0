//! The events that a picture has, by their numbers in the record.

use crate::record::{Event, Record};

pub struct Drawn<'a> {
    pub record: &'a Record,
    /// Of the events, rising.
    pub numbers: Vec<usize>,
    /// Those that have a line, rising; all of the events' are among them.
    pub sites: Vec<usize>,
    is_drawn: Vec<bool>,
}

impl<'a> Drawn<'a> {
    /// With the lines of these sites, and of those that events are at.
    pub fn new(record: &'a Record, is_drawn: Vec<bool>, has_line: impl Fn(usize) -> bool) -> Drawn<'a> {
        let numbers: Vec<usize> = record.numbers().filter(|&event| is_drawn[event]).collect();
        let has_event = |site: usize| numbers.iter().any(|&event| record.events[event].site == site);
        let sites = (0..record.sites).filter(|&site| has_line(site) || has_event(site)).collect();
        Drawn { record, numbers, sites, is_drawn }
    }

    pub fn events(&self) -> impl Iterator<Item = (usize, &Event)> {
        self.numbers.iter().map(|&number| (number, &self.record.events[number]))
    }

    /// Whether these two are drawn, and the second sees the first.
    pub fn is_visible(&self, a: usize, b: usize) -> bool {
        self.is_drawn[a] && self.is_drawn[b] && self.record.is_visible(a, b)
    }

    /// How many events are not drawn.
    pub fn left_out(&self) -> usize {
        self.record.events.len() - self.numbers.len()
    }
}
