//! A break, as the library finds it and tells of it.

use super::Break;
use gcr::{explain, Predicate, Refusal};

#[derive(Clone, Debug, PartialEq, Eq)]
pub struct Broken {
    pub predicate: Predicate,
    /// The pair's first event, and after it what the library tells, the pair's second event last. A read that should
    /// hold what its object starts with is both, and stands there once.
    pub way: Vec<usize>,
}

impl Broken {
    /// With what the library tells of a break that it found in this record.
    pub fn of(found: Break, record: &[u8]) -> Result<Broken, Refusal> {
        let told = explain(found.by, record)?;
        let is_of_opening = found.by == Predicate::RVal && found.a == found.b;
        let first = Some(found.a).filter(|_| !is_of_opening);
        Ok(Broken { predicate: found.by, way: first.into_iter().chain(told).map(usize::from).collect() })
    }

    pub fn pair(&self) -> (usize, usize) {
        (self.way[0], self.way[self.way.len() - 1])
    }

    pub fn events(&self) -> String {
        let (a, b) = self.pair();
        events(a, b)
    }
}

/// A pair of events in words: `events 0 and 2`, or `event 1` where both are one.
pub fn events(a: usize, b: usize) -> String {
    match a == b {
        true => format!("event {a}"),
        false => format!("events {a} and {b}"),
    }
}
