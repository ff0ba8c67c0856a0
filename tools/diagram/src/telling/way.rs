//! The events of a break: what happened in each, how the way comes to it, and what is wrong at its end.

use super::breach::{due_value, value, Breach};
use super::chain::By;
use super::due::Due;
use super::happened::happened;
use crate::finding::Broken;
use crate::record::Record;
use gcr::Predicate;

pub struct Way<'a> {
    pub record: &'a Record,
    pub broken: &'a Broken,
    pub breach: &'a Breach,
}

/// How the way comes to an event.
enum Lead {
    /// Along the site's line, from this event.
    Along(usize),
    /// As these words say.
    By(String),
}

/// What is wrong, and how that joins what was said before: `but` and `did not see event 0`.
struct Wrong {
    join: &'static str,
    what: String,
}

impl Way<'_> {
    /// A line for each event.
    pub fn lines(&self) -> impl Iterator<Item = String> + '_ {
        (0..self.broken.way.len()).map(|at| format!("event {}: {}", self.broken.way[at], self.told(at)))
    }

    fn told(&self, at: usize) -> String {
        let happened = happened(&self.record.events[self.broken.way[at]]);
        if self.broken.way.len() == 1 {
            return format!("{happened}; it {}", self.due_held());
        }
        let Some(step) = at.checked_sub(1) else { return happened };
        let wrong = (at + 1 == self.broken.way.len()).then(|| self.wrong());
        match self.lead(step) {
            Lead::Along(from) => {
                let wrong = wrong.map_or(String::new(), |Wrong { join, what }| format!("; {join} it {what}"));
                format!("then, at the same site as event {from}, {happened}{wrong}")
            }
            Lead::By(words) => {
                let wrong = wrong.map_or(String::new(), |Wrong { join, what }| format!(", {join} {what}"));
                format!("{happened}; {words}{wrong}")
            }
        }
    }

    /// Over a step of the way.
    fn lead(&self, step: usize) -> Lead {
        let (from, to) = (self.broken.way[step], self.broken.way[step + 1]);
        match Due::by(self.broken.predicate) {
            Due::Value => Lead::By(format!("event {from} saw it")),
            Due::SameOrder if self.record.is_visible(from, to) => saw(from),
            Due::SameOrder => Lead::By(format!("it {}", self.placed(to, "after", from))),
            Due::Sight | Due::Place => match self.breach.steps.get(step) {
                Some(step) if step.by == By::Sight => saw(from),
                None if self.is_by_time() => self.started(from, to),
                _ => Lead::Along(from),
            },
        }
    }

    fn is_by_time(&self) -> bool {
        matches!(self.broken.predicate, Predicate::RealTime | Predicate::RealTimeWrites)
    }

    fn started(&self, from: usize, to: usize) -> Lead {
        Lead::By(match self.record.skew(from, to) {
            0 => format!("it started after event {from} returned"),
            skew => format!("it started more than {skew} ms after event {from} returned"),
        })
    }

    /// `is at 2 in arbitration, before event 0 at 3`
    fn placed(&self, event: usize, side: &str, other: usize) -> String {
        let place = |event: usize| self.record.events[event].position;
        format!("is at {} in arbitration, {side} event {other} at {}", place(event), place(other))
    }

    fn wrong(&self) -> Wrong {
        let (a, b) = self.broken.pair();
        let is_seen = self.record.is_visible(a, b);
        let (join, what) = match Due::by(self.broken.predicate) {
            Due::Value => ("and", self.due_held()),
            Due::Sight if a == b => ("and so", "would have to see itself".to_string()),
            Due::Place if a == b => ("and so", "would have to be before itself in arbitration".to_string()),
            Due::Place => ("but", self.placed(b, "before", a)),
            Due::SameOrder if is_seen => ("but", self.placed(b, "before", a)),
            Due::Sight | Due::SameOrder => ("but", format!("did not see event {a}")),
        };
        Wrong { join, what }
    }

    fn due_held(&self) -> String {
        let (read, last) = self.broken.pair();
        format!("should have held {}", value(due_value(self.record, read, last)))
    }
}

fn saw(event: usize) -> Lead {
    Lead::By(format!("it saw event {event}"))
}
