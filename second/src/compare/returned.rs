//! Counts what tells the cases in which Change 5 writes rb: first event pending, same site, other site.

use super::clocks::sum;
use super::occurrences::Row;
use super::tally::Tally;
use crate::predicates::{Answer, Judged};
use crate::record::{Event, Record};
use crate::relations::{returned_before, Relations};

/// Pairs of different events, of which rb is easily got wrong. A record counts by each of the predicates that has another
/// answer where rb is the other way round on these pairs, and on no others.
pub struct Edge {
    pub row: Row,
    pub pairs: fn(&Record, &Event, &Event) -> bool,
}

/// All that go by rb: at one site it gives so, and with it hb.
const BY_RETURNS: &[u32] = &[3, 4, 5, 6, 7, 8, 9, 10, 11, 12];
/// Of those one or two for each of rb, so and hb, where pairs are rare.
const BY_RARE_RETURNS: &[u32] = &[3, 4, 9, 10, 11];
/// The first in ar is before all others there, so that only what they see tells.
const BY_SIGHT: &[u32] = &[6, 9, 10, 11, 12];
const REAL_TIME: &[u32] = &[3, 4];

const LAST: u64 = u64::MAX;

/// By the three cases of rb.
pub const EDGES: [Edge; 22] = [
    // A number in the place of a missing return is told by the pairs that are rb by it. By 2^64 - 1 none are, unless its
    // sum wraps.
    Edge::new("tells: pending before all", BY_RETURNS, |_, a, _| a.pending()),
    Edge::new("tells: pending as returned at 0", BY_RETURNS, |record, a, b| {
        a.pending() && apart(record, a, b) < b.start
    }),
    Edge::new("tells: pending at 2^64-1 wraps", REAL_TIME, |record, a, b| {
        a.pending() && LAST.wrapping_add(apart(record, a, b)) < b.start
    }),
    Edge::new("tells: pending as returned at once", BY_RARE_RETURNS, |record, a, b| {
        a.pending() && u128::from(a.start) + u128::from(apart(record, a, b)) < b.start.into()
    }),
    Edge::new("tells: pending, then start 0", BY_RETURNS, |_, a, b| a.pending() && b.start == 0),
    Edge::new("tells: pending, then start 2^64-1", BY_RARE_RETURNS, |_, a, b| a.pending() && b.start == LAST),
    Edge::new("tells: pending, last in ar", BY_RETURNS, |record, a, _| {
        a.pending() && usize::from(a.position) + 1 == record.events.len()
    }),
    Edge::new("tells: pending, first in ar", BY_SIGHT, |_, a, _| a.pending() && a.position == 0),
    // Same site.
    Edge::new("tells: one site, start = return", BY_RETURNS, |_, a, b| one_site(a, b) && a.end == Some(b.start)),
    Edge::new("tells: one site, both 2^64-1", BY_RARE_RETURNS, |_, a, b| one_site(a, b) && times(a, b, LAST, LAST)),
    Edge::new("tells: one site, both 2^64-2", BY_RARE_RETURNS, |_, a, b| {
        one_site(a, b) && times(a, b, LAST - 1, LAST - 1)
    }),
    Edge::new("tells: one site, start one above", BY_RETURNS, |_, a, b| one_site(a, b) && one_above(a.end, b.start)),
    Edge::new("tells: one site, above, 2^64-1", BY_RARE_RETURNS, |_, a, b| {
        one_site(a, b) && times(a, b, LAST - 1, LAST)
    }),
    Edge::new("tells: one site, above, 2^64-2", BY_RARE_RETURNS, |_, a, b| {
        one_site(a, b) && times(a, b, LAST - 2, LAST - 1)
    }),
    // Other site, by return + difference. The largest difference stands beside the largest start, and at last beside the
    // largest return.
    Edge::new("tells: sites, start = sum", REAL_TIME, |record, a, b| sums(record, a, b, |sum| sum == b.start.into())),
    Edge::new("tells: sites, start one above", REAL_TIME, |record, a, b| {
        sums(record, a, b, |sum| sum + 1 == b.start.into())
    }),
    Edge::new("tells: sites, start one below", REAL_TIME, |record, a, b| {
        sums(record, a, b, |sum| sum == u128::from(b.start) + 1)
    }),
    Edge::new("tells: sites, sum past 2^64-1", REAL_TIME, |record, a, b| sums(record, a, b, |sum| sum > LAST.into())),
    Edge::new("tells: largest, start = sum", REAL_TIME, |record, a, b| {
        largest(record, b) && sums(record, a, b, |sum| sum == LAST.into())
    }),
    Edge::new("tells: largest, start one above", REAL_TIME, |record, a, b| {
        largest(record, b) && sums(record, a, b, |sum| sum + 1 == LAST.into())
    }),
    Edge::new("tells: largest, start one below", REAL_TIME, |record, a, b| {
        largest(record, b) && sums(record, a, b, |sum| sum == u128::from(LAST) + 1)
    }),
    Edge::new("tells: largest sum of all", REAL_TIME, |record, a, b| {
        sums(record, a, b, |largest| largest == sum(LAST, u32::MAX))
    }),
];

/// What must occur of them.
pub const TOLD: [Row; EDGES.len()] = {
    let (mut rows, mut at) = ([EDGES[0].row; EDGES.len()], 0);
    while at < rows.len() {
        rows[at] = EDGES[at].row;
        at += 1;
    }
    rows
};

impl Edge {
    const fn new(sort: &'static str, predicates: &'static [u32], pairs: fn(&Record, &Event, &Event) -> bool) -> Edge {
        Edge { row: (sort, predicates), pairs }
    }

    fn has(&self, record: &Record, a: &Event, b: &Event) -> bool {
        a.position != b.position && (self.pairs)(record, a, b)
    }

    fn is_in(&self, record: &Record) -> bool {
        let events = &record.events;
        events.iter().any(|a| events.iter().any(|b| self.has(record, a, b)))
    }

    /// The answers where rb is the other way round on these pairs.
    pub fn turned(&self, record: &Record) -> Vec<Answer> {
        let difference = record.difference;
        let before = |a: &Event, b: &Event| returned_before(difference, a, b) != self.has(record, a, b);
        Judged::by(record, Relations::by(record, before)).answers()
    }
}

/// What the clocks of the two events may differ by.
fn apart(record: &Record, a: &Event, b: &Event) -> u64 {
    if one_site(a, b) {
        0
    } else {
        record.difference.into()
    }
}

fn one_site(a: &Event, b: &Event) -> bool {
    a.site == b.site
}

fn times(a: &Event, b: &Event, end: u64, start: u64) -> bool {
    (a.end, b.start) == (Some(end), start)
}

fn one_above(end: Option<u64>, start: u64) -> bool {
    end.is_some_and(|end| end.checked_add(1) == Some(start))
}

fn sums(record: &Record, a: &Event, b: &Event, fits: impl Fn(u128) -> bool) -> bool {
    !one_site(a, b) && a.end.is_some_and(|end| fits(sum(end, record.difference)))
}

fn largest(record: &Record, b: &Event) -> bool {
    record.difference == u32::MAX && b.start == LAST
}

/// Larger ones take long and have no other edges.
const MOST_TURNED: usize = 24;

/// A record that was judged, with the answers of all thirteen.
pub fn judged(record: &Record, answers: &[Answer], tally: &mut Tally) {
    if record.events.len() > MOST_TURNED {
        return;
    }
    for edge in EDGES.iter().filter(|edge| edge.is_in(record)) {
        let ((sort, predicates), turned) = (edge.row, edge.turned(record));
        let told = |predicate: &&u32| answers[**predicate as usize - 1] != turned[**predicate as usize - 1];
        predicates.iter().filter(told).for_each(|&predicate| tally.occurred(sort, predicate));
    }
}
