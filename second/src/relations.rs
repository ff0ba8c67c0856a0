//! The relations between events, as sets of pairs.

use crate::record::{Event, Record};

#[derive(Clone, Debug, PartialEq, Eq)]
pub struct Pairs {
    events: usize,
    holds: Vec<bool>,
}

impl Pairs {
    pub fn such_that(events: usize, holds: impl Fn(usize, usize) -> bool) -> Pairs {
        let all = (0..events).flat_map(|a| (0..events).map(move |b| (a, b)));
        Pairs { events, holds: all.map(|(a, b)| holds(a, b)).collect() }
    }

    /// How many there are to make pairs of.
    pub fn events(&self) -> usize {
        self.events
    }

    pub fn has(&self, a: usize, b: usize) -> bool {
        self.holds[a * self.events + b]
    }

    /// All (a, b) with a path of one or more steps from a to b: first those through no other event, then those through
    /// event 0 too, and so on.
    pub fn one_or_more_steps(&self) -> Pairs {
        let mut reached = self.clone();
        for through in 0..self.events {
            let after = reached.row(through).to_vec();
            for before in 0..self.events {
                if reached.has(before, through) {
                    let row = &mut reached.holds[before * self.events..][..self.events];
                    row.iter_mut().zip(&after).for_each(|(holds, after)| *holds |= after);
                }
            }
        }
        reached
    }

    /// For each b whether (a, b) is one of them.
    fn row(&self, a: usize) -> &[bool] {
        &self.holds[a * self.events..][..self.events]
    }

    /// The pairs of these and of others.
    pub fn or(&self, other: &Pairs) -> Pairs {
        Pairs::such_that(self.events, |a, b| self.has(a, b) || other.has(a, b))
    }

    /// The pairs of these that a condition keeps.
    pub fn cut(&self, keep: impl Fn(usize, usize) -> bool) -> Pairs {
        Pairs::such_that(self.events, |a, b| self.has(a, b) && keep(a, b))
    }

    /// Lowest a, and for it the lowest b, here but not in the other set.
    pub fn first_outside(&self, other: &Pairs) -> Option<(usize, usize)> {
        let first = (0..self.holds.len()).find(|&at| self.holds[at] && !other.holds[at])?;
        Some((first / self.events, first % self.events))
    }
}

pub struct Relations {
    pub rb: Pairs,
    pub ob: Pairs,
    pub so: Pairs,
    pub vis: Pairs,
    pub ar: Pairs,
    /// so or vis.
    pub step: Pairs,
    pub hb: Pairs,
}

/// a returned before b: never where a is pending. One site's events have one clock; those of two sites may differ.
pub fn returned_before(difference: u32, a: &Event, b: &Event) -> bool {
    match a.end {
        None => false,
        Some(end) if a.site == b.site => end < b.start,
        Some(end) => u128::from(end) + u128::from(difference) < u128::from(b.start),
    }
}

impl Relations {
    pub fn of(record: &Record) -> Relations {
        let difference = record.difference;
        Relations::by(record, |a, b| returned_before(difference, a, b))
    }

    /// By a rule of which event returned before which, right or wrong.
    pub fn by(record: &Record, before: impl Fn(&Event, &Event) -> bool) -> Relations {
        let events = &record.events;
        let n = events.len();
        let rb = Pairs::such_that(n, |a, b| before(&events[a], &events[b]));
        let so = rb.cut(|a, b| events[a].site == events[b].site);
        let vis = Pairs::such_that(n, |a, b| events[b].visible[a]);
        let step = so.or(&vis);
        Relations {
            ob: Pairs::such_that(n, |a, b| events[a].object == events[b].object),
            ar: Pairs::such_that(n, |a, b| events[a].position < events[b].position),
            hb: step.one_or_more_steps(),
            step,
            rb,
            so,
            vis,
        }
    }
}
