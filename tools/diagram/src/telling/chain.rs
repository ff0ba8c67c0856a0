//! The way from one event of a breaking pair to the other, as the library tells it, step by step.

use crate::record::Record;

/// Ways longer than this are not told step by step.
const TOLD: usize = 5;
/// Of more events on the way than these and the last one, only these and the last one are named.
const NAMED: usize = 5;

#[derive(Clone, Copy, Debug, PartialEq, Eq)]
pub struct Step {
    pub from: usize,
    pub to: usize,
    pub by: By,
}

#[derive(Clone, Copy, Debug, PartialEq, Eq)]
pub enum By {
    /// The second event sees the first.
    Sight,
    /// The second is later at the first one's site.
    SiteOrder,
}

/// The steps of a chain, which are of visibility or of site order. One that is of both counts as visibility.
pub fn of_chain(record: &Record, way: &[usize]) -> Vec<Step> {
    let by = |from, to| if record.is_visible(from, to) { By::Sight } else { By::SiteOrder };
    way.windows(2).map(|pair| Step { from: pair[0], to: pair[1], by: by(pair[0], pair[1]) }).collect()
}

/// The two steps by a read that sees the first event and is earlier at the last one's site.
pub fn by_read(way: &[usize]) -> Vec<Step> {
    let steps = way.windows(2).zip([By::Sight, By::SiteOrder]);
    steps.map(|(pair, by)| Step { from: pair[0], to: pair[1], by }).collect()
}

/// The events between both ends.
pub fn between(steps: &[Step]) -> Vec<usize> {
    steps.iter().skip(1).map(|step| step.from).collect()
}

/// The way in words: `event 0 is seen by event 1, which is before event 2 at site 1`.
pub fn in_words(record: &Record, steps: &[Step]) -> Option<String> {
    let (first, last) = (steps.first()?.from, steps.last()?.to);
    if steps.len() > TOLD {
        let (kinds, through) = (kinds(steps), named(&between(steps)));
        return Some(format!("event {first} leads to event {last} by {kinds} through events {through}"));
    }
    let step = |step: &Step| match step.by {
        By::Sight => format!("is seen by event {}", step.to),
        By::SiteOrder => format!("is before event {} at site {}", step.to, record.events[step.to].site),
    };
    let steps: Vec<String> = steps.iter().map(step).collect();
    Some(format!("event {first} {}", steps.join(", which ")))
}

/// `2, 3, 4, 5, 6, 7`, or of more `2, 3, 4, 5, 6 and 377 more, the last of them event 383`.
fn named(events: &[usize]) -> String {
    let (first, more) = events.split_at(NAMED.min(events.len()));
    let list = |events: &[usize]| events.iter().map(usize::to_string).collect::<Vec<_>>().join(", ");
    match more {
        [] | [_] => list(events),
        [.., last] => format!("{} and {} more, the last of them event {last}", list(first), more.len()),
    }
}

/// What the steps are of.
fn kinds(steps: &[Step]) -> &'static str {
    let has = |by: By| steps.iter().any(|step| step.by == by);
    match (has(By::Sight), has(By::SiteOrder)) {
        (true, true) => "visibility and site order",
        (true, false) => "visibility",
        _ => "site order",
    }
}
