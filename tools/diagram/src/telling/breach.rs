//! What a break means, in terms of what the record says.

use super::chain::{self, in_words, By, Step};
use super::due::Due;
use crate::finding::Broken;
use crate::record::Record;
use crate::sight::{Arrow, Says};
use gcr::Predicate;

pub struct Breach {
    /// What breaks, for the arrow that shows it.
    pub note: String,
    /// Why that is a break; goes on after the note.
    reason: String,
    /// The breaking pair's arrows, the first with the note. None where the break is in one event's value.
    pub arrows: Vec<Arrow>,
    pair: (usize, usize),
    /// Other events of the way, or that the reason names.
    pub named: Vec<usize>,
    /// The way from the pair's first event to its second, where the reason is one.
    pub steps: Vec<Step>,
}

/// Why a pair belongs to the left side of a predicate, and which steps say so.
struct Reason {
    text: String,
    steps: Vec<Step>,
}

impl Breach {
    pub fn new(record: &Record, broken: &Broken) -> Breach {
        let (a, b) = broken.pair();
        match Due::by(broken.predicate) {
            Due::Value => held(record, a, b),
            Due::SameOrder => differing(record, broken.predicate, a, b),
            Due::Sight => unseen(a, b, reason(record, broken)),
            Due::Place => misplaced(a, b, reason(record, broken)),
        }
    }

    /// Whether the way has a step from one event to another that sees it.
    pub fn has_sight(&self, from: usize, to: usize) -> bool {
        self.steps.contains(&Step { from, to, by: By::Sight })
    }

    /// The breaking pair's events, or the one where both are the same.
    pub fn events(&self) -> Vec<usize> {
        let mut events = vec![self.pair.0, self.pair.1];
        events.dedup();
        events
    }

    /// All that it is made of.
    pub fn all(&self) -> Vec<usize> {
        [self.events(), self.named.clone()].concat()
    }

    pub fn sentence(&self) -> String {
        format!("{}{}", self.note, self.reason)
    }
}

fn held(record: &Record, read: usize, last: usize) -> Breach {
    let object = record.events[read].object;
    let (reason, arrows) = if read == last {
        (unwritten(record, object), Vec::new())
    } else {
        let reason =
            format!(": of the writes on object {object} that it sees, event {last} is the last in arbitration");
        (reason, vec![Arrow::new(last, read, Says::Sees)])
    };
    let (holds, due) = (value(record.events[read].value), value(due_value(record, read, last)));
    let note = format!("event {read} holds {holds}, not {due}");
    Breach { note, reason, arrows, pair: (read, last), named: Vec::new(), steps: Vec::new() }
}

/// What a read should hold, by the pair that says that it does not: itself twice where it sees no write on its object.
pub fn due_value(record: &Record, read: usize, last: usize) -> Option<u32> {
    match read == last {
        true => record.opening(record.events[read].object),
        false => record.events[last].value,
    }
}

/// Why a read should hold what its object starts with.
fn unwritten(record: &Record, object: u8) -> String {
    let opening = record.opening(object);
    let opens = opening.map_or("which has no opening".to_string(), |opening| format!("whose opening is {opening}"));
    format!(": it sees no write on object {object}, {opens}")
}

pub fn value(value: Option<u32>) -> String {
    value.map_or("none".to_string(), |value| value.to_string())
}

fn differing(record: &Record, predicate: Predicate, a: usize, b: usize) -> Breach {
    let is_cut = predicate == Predicate::PerObjectSingleOrder;
    let both = if is_cut { format!(", both on object {}", record.events[a].object) } else { String::new() };
    if record.is_visible(a, b) {
        let reason = format!(", though arbitration places event {b} before event {a}{both}");
        let arrows = vec![Arrow::new(a, b, Says::Sees), Arrow::new(b, a, Says::Placed)];
        let note = format!("event {b} sees event {a}");
        return Breach { note, reason, arrows, pair: (a, b), named: Vec::new(), steps: Vec::new() };
    }
    let counts = |seer: &usize| !is_cut || record.events[*seer].object == record.events[a].object;
    let named: Vec<usize> = seer_of_pending(record, a, counts).into_iter().collect();
    let pending =
        named.iter().map(|seer| format!("; event {a} is pending, but event {seer} sees it")).collect::<String>();
    let reason = format!(", though arbitration places event {a} before event {b}{both}{pending}");
    let arrows = vec![Arrow::new(a, b, Says::Unseen)];
    Breach { note: does_not_see(a, b), reason, arrows, pair: (a, b), named, steps: Vec::new() }
}

/// Why a pending event is not left out: something sees it.
fn seer_of_pending(record: &Record, a: usize, counts: impl Fn(&usize) -> bool) -> Option<usize> {
    let mut seers = record.numbers().filter(|&seer| record.is_visible(a, seer)).filter(counts);
    record.events[a].is_pending().then(|| seers.next()).flatten()
}

fn does_not_see(a: usize, b: usize) -> String {
    format!("event {b} does not see event {a}")
}

fn unseen(a: usize, b: usize, why: Reason) -> Breach {
    let note = if a == b { format!("event {a} would have to see itself") } else { does_not_see(a, b) };
    why.breach(note, Arrow::new(a, b, Says::Unseen), (a, b))
}

fn misplaced(a: usize, b: usize, why: Reason) -> Breach {
    let (note, arrow) = if a == b {
        let note = format!("arbitration would have to place event {a} before itself");
        (note, Arrow::new(a, b, Says::Unplaced))
    } else {
        (format!("event {b} is placed before event {a} in arbitration"), Arrow::new(b, a, Says::Placed))
    };
    why.breach(note, arrow, (a, b))
}

impl Reason {
    fn breach(self, note: String, arrow: Arrow, pair: (usize, usize)) -> Breach {
        let named = chain::between(&self.steps);
        Breach { note, reason: self.text, arrows: vec![arrow], pair, named, steps: self.steps }
    }
}

/// Of predicates that are inclusions.
fn reason(record: &Record, broken: &Broken) -> Reason {
    let (a, b) = broken.pair();
    let (site, object) = (record.events[b].site, record.events[b].object);
    match broken.predicate {
        Predicate::RealTime => returned(record, a, b, ""),
        Predicate::RealTimeWrites => returned(record, a, b, ", a write,"),
        Predicate::MonotonicReads | Predicate::WritesFollowReads => by_read(broken),
        Predicate::ReadYourWrites => alone(", an earlier write at its site".to_string()),
        Predicate::MonotonicWrites => {
            alone(format!(", though both are writes at site {site} and event {a} is the earlier"))
        }
        Predicate::Pram => alone(", an earlier event at its site".to_string()),
        Predicate::PerObjectPram => alone(format!(", an earlier event at its site on its object, {object}")),
        _ => by_chain(record, broken),
    }
}

fn alone(text: String) -> Reason {
    Reason { text, steps: Vec::new() }
}

fn returned(record: &Record, a: usize, b: usize, what: &str) -> Reason {
    // a pending event is before nothing, so that no break of these has one first
    let Some(end) = record.events[a].end else { return alone(String::new()) };
    let start = record.events[b].start;
    let by = match record.skew(a, b) {
        0 => String::new(),
        skew => format!("more than {skew} ms "),
    };
    alone(format!(", though event {a}{what} returned at {end} ms, {by}before event {b} started at {start} ms"))
}

/// What speaks against the record's pair, or for a pair of an event with itself.
fn link(a: usize, b: usize) -> &'static str {
    match a == b {
        true => ", as",
        false => ", though",
    }
}

/// An earlier read at b's site sees a.
fn by_read(broken: &Broken) -> Reason {
    let ((a, b), steps) = (broken.pair(), chain::by_read(&broken.way));
    let seen = if a == b { "it".to_string() } else { format!("event {a}") };
    let text = |read: usize| format!("{} event {read}, an earlier read at event {b}'s site, sees {seen}", link(a, b));
    Reason { text: chain::between(&steps).into_iter().map(text).collect(), steps }
}

fn by_chain(record: &Record, broken: &Broken) -> Reason {
    let ((a, b), steps) = (broken.pair(), chain::of_chain(record, &broken.way));
    let words = in_words(record, &steps).map(|words| format!("{} {words}", link(a, b)));
    Reason { text: words.unwrap_or_default(), steps }
}
