//! Questions 9 and 10: what an event cannot see.

use super::super::ranges::{parts, Range};
use super::{no_such, Refused};
use crate::text::Bad;
use gcr::{Record, VisibleSet};
use std::collections::VecDeque;

/// So many events of a ring are named.
const NAMED: usize = 6;

impl<'a> Refused<'_, 'a> {
    /// An event that is not in the record, or itself.
    pub fn sees_wrongly(&self) -> Option<Bad> {
        let (number, count) = (self.number, self.table.record.count());
        let wrong = |range: &Range| {
            let is_beyond = usize::from(range.last) >= count;
            let beyond = || range.word.bad(no_such("event", range.last, count));
            let itself = || range.word.bad(format!("event {number} sees itself"));
            is_beyond.then(beyond).or_else(|| has(range, number).then(itself))
        };
        self.ranges()?.iter().find_map(wrong)
    }

    pub fn sees_itself_through_others(&self) -> Option<Bad> {
        let way = way_back(&self.table.record, self.number)?;
        let first = *way.first()?;
        let range = self.ranges()?.into_iter().find(|range| has(range, first))?;
        Some(range.word.bad(format!("event {} sees itself through {}", self.number, told(&way))))
    }

    fn ranges(&self) -> Option<Vec<Range<'a>>> {
        parts(self.row.seen().ok()?).ok()
    }
}

fn has(range: &Range, event: u16) -> bool {
    (range.first..=range.last).contains(&event)
}

/// The events of a shortest way on which each sees the next, from this one back to it, without it.
fn way_back(record: &Record, event: u16) -> Option<Vec<u16>> {
    let mut reached = VisibleSet::none();
    let mut ways = VecDeque::from([vec![event]]);
    while let Some(way) = ways.pop_front() {
        for seen in record.event(*way.last()?)?.visible.iter() {
            if seen == event {
                return Some(way[1..].to_vec());
            }
            if !reached.contains(seen) {
                reached = reached.with(seen)?;
                ways.push_back([way.as_slice(), &[seen]].concat());
            }
        }
    }
    None
}

fn told(way: &[u16]) -> String {
    let names: Vec<String> = way.iter().take(NAMED).map(u16::to_string).collect();
    match (way.len() - names.len(), names.as_slice()) {
        (0, [one]) => format!("event {one}"),
        (0, [first @ .., last]) => format!("events {} and {last}", first.join(", ")),
        (more, _) => format!("events {} and {more} more", names.join(", ")),
    }
}
