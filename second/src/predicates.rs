//! The thirteen predicates, by quantifiers over events.

use crate::openings::Openings;
use crate::record::{Event, Record};
use crate::relations::{Pairs, Relations};

pub const PREDICATES: std::ops::RangeInclusive<u32> = 1..=13;

#[derive(Clone, Copy, Debug, PartialEq, Eq)]
pub enum Answer {
    Met,
    Broken(usize, usize),
}

impl Answer {
    fn from_break(pair: Option<(usize, usize)>) -> Answer {
        pair.map_or(Answer::Met, |(a, b)| Answer::Broken(a, b))
    }
}

/// A record with its relations, worked out once for all predicates.
pub struct Judged<'a> {
    pub events: &'a [Event],
    pub openings: Openings,
    pub relations: Relations,
}

impl<'a> Judged<'a> {
    pub fn new(record: &'a Record) -> Judged<'a> {
        Judged::by(record, Relations::of(record))
    }

    /// With these relations in the place of the record's.
    pub fn by(record: &'a Record, relations: Relations) -> Judged<'a> {
        Judged { events: &record.events, openings: record.openings, relations }
    }

    /// The answer of a predicate numbered 1 to 13.
    pub fn answer(&self, predicate: u32) -> Answer {
        let Relations { rb, ob, so, vis, ar, hb, .. } = &self.relations;
        let write = |event: usize| self.events[event].is_write();
        let read = |event: usize| self.events[event].is_read();
        Answer::from_break(match predicate {
            1 => self.wrong_read(),
            2 => self.out_of_order(vis, ar),
            3 => rb.first_outside(ar),
            4 => rb.cut(|a, _| write(a)).first_outside(ar),
            5 => self.seen_then(|b, c| read(b) && read(c)).first_outside(vis),
            6 => so.cut(|a, b| write(a) && read(b)).first_outside(vis),
            7 => so.cut(|a, b| write(a) && write(b)).first_outside(ar),
            8 => self.seen_then(|b, c| read(b) && write(c)).cut(|a, _| write(a)).first_outside(ar),
            9 => so.first_outside(vis),
            10 => hb.first_outside(vis),
            11 => hb.first_outside(ar),
            12 => so.cut(|a, b| ob.has(a, b)).first_outside(vis),
            13 => self.out_of_order(&vis.cut(|a, b| ob.has(a, b)), &ar.cut(|a, b| ob.has(a, b))),
            _ => unreachable!("question 2 comes first"),
        })
    }

    pub fn answers(&self) -> Vec<Answer> {
        PREDICATES.map(|predicate| self.answer(predicate)).collect()
    }

    fn all(&self) -> std::ops::Range<usize> {
        0..self.events.len()
    }

    /// RVal's break: the lowest failing read with the write it should hold, or twice where it sees none.
    fn wrong_read(&self) -> Option<(usize, usize)> {
        self.all().filter(|&e| self.events[e].is_read() && !self.events[e].pending()).find_map(|e| {
            let last = self.last_visible_write(e);
            let due = match last {
                Some(write) => self.events[write].value,
                None => self.openings.of(self.events[e].object as usize),
            };
            (self.events[e].value != due).then_some((e, last.unwrap_or(e)))
        })
    }

    fn last_visible_write(&self, read: usize) -> Option<usize> {
        let Relations { ob, vis, ar, .. } = &self.relations;
        let seen = |&w: &usize| self.events[w].is_write() && ob.has(w, read) && vis.has(w, read);
        let writes: Vec<usize> = self.all().filter(seen).collect();
        let last = |w: usize| writes.iter().all(|&other| other == w || ar.has(other, w));
        writes.iter().copied().find(|&w| last(w))
    }

    /// The break of SingleOrder over these two relations.
    fn out_of_order(&self, vis: &Pairs, ar: &Pairs) -> Option<(usize, usize)> {
        let differ = |a: usize, b: usize| vis.has(a, b) != ar.has(a, b);
        self.all().find_map(|a| {
            let seen = self.all().any(|b| vis.has(a, b));
            let excused = self.events[a].pending() && !seen;
            let difference = self.all().find(|&b| differ(a, b));
            difference.filter(|_| !excused).map(|b| (a, b))
        })
    }

    /// The pairs (a, c) with a vis b and b so c for some fitting b and c.
    fn seen_then(&self, fits: impl Fn(usize, usize) -> bool) -> Pairs {
        let Relations { so, vis, .. } = &self.relations;
        let between = |c| self.all().filter(|&b| so.has(b, c) && fits(b, c)).collect();
        let between: Vec<Vec<usize>> = self.all().map(between).collect();
        Pairs::such_that(self.events.len(), |a, c| between[c].iter().any(|&b| vis.has(a, b)))
    }
}
