//! Whether what an explanation says of an event is true of the record, read word by word.

use super::truth::{numbers, shape};
use second::record::Record;
use second::relations::Relations;

/// A line of an event on the way, in its parts.
#[derive(Debug, PartialEq, Eq)]
pub struct Line<'a> {
    pub event: usize,
    happened: &'a str,
    /// How the way comes to it.
    pub lead: Option<&'a str>,
    /// What is wrong at its end.
    pub wrong: Option<&'a str>,
}

impl Line<'_> {
    pub fn read(line: &str) -> Line<'_> {
        let (event, rest) = line.split_once(": ").expect("an event begins a line");
        let event = event.strip_prefix("event ").expect("it is one").parse().expect("a number");
        let (told, after) = rest.split_once("; ").map_or((rest, None), |(told, after)| (told, Some(after)));
        // A step along the site's line stands before what happened, and any other after it.
        if let Some((lead, happened)) = told.split_once(", site ").filter(|(lead, _)| lead.starts_with("then, ")) {
            let happened = &told[told.len() - happened.len() - "site ".len()..];
            let wrong = after.map(|after| after.strip_prefix("but it ").or(after.strip_prefix("and so it ")));
            return Line { event, happened, lead: Some(lead), wrong: wrong.map(|wrong| wrong.expect("it is joined")) };
        }
        let parts = after.map(|after| match joined(after) {
            Some((lead, wrong)) => (Some(lead), Some(wrong)),
            None if after.starts_with("it should") => (None, after.strip_prefix("it ")),
            None => (Some(after), None),
        });
        let (lead, wrong) = parts.unwrap_or((None, None));
        Line { event, happened: told, lead, wrong }
    }
}

/// How the way comes to an event, and what is wrong there.
fn joined(after: &str) -> Option<(&str, &str)> {
    [", but ", ", and so ", ", and "].into_iter().find_map(|join| after.split_once(join))
}

pub struct Events<'a> {
    pub record: &'a Record,
    pub relations: Relations,
    /// The breaking pair.
    pub pair: (usize, usize),
}

impl Events<'_> {
    /// Whether a line is true, of which `before` is the event before it on the way.
    pub fn hold(&self, line: &Line, before: Option<usize>) -> bool {
        let lead = line.lead.is_none_or(|lead| before.is_some_and(|before| self.leads(lead, before, line.event)));
        self.happened(line.event, line.happened) && lead && line.wrong.is_none_or(|wrong| self.is_wrong(wrong))
    }

    fn happened(&self, event: usize, words: &str) -> bool {
        let event = (event, &self.record.events[event]);
        let numbers: Vec<u64> = numbers(words).into_iter().map(|number| number as u64).collect();
        let (site, object, value) = (event.1.site.into(), event.1.object.into(), event.1.value.map(u64::from));
        let of = |is_write: bool, pending: bool| (event.1.is_write(), event.1.pending()) == (is_write, pending);
        let times = |start: u64, end: u64| (event.1.start, event.1.end) == (start, Some(end));
        match (shape(words).as_str(), &numbers[..]) {
            ("site # wrote # to object #, from # ms to # ms", &[s, v, o, start, end]) => {
                of(true, false) && (s, Some(v), o) == (site, value, object) && times(start, end)
            }
            ("site # writes # to object #, pending since # ms", &[s, v, o, start]) => {
                of(true, true) && (s, Some(v), o, start) == (site, value, object, event.1.start)
            }
            ("site # reads object #, pending since # ms", &[s, o, start]) => {
                of(false, true) && (s, o, start) == (site, object, event.1.start)
            }
            ("site # read none from object #, from # ms to # ms", &[s, o, start, end]) => {
                of(false, false) && (s, None, o) == (site, value, object) && times(start, end)
            }
            ("site # read # from object #, from # ms to # ms", &[s, v, o, start, end]) => {
                of(false, false) && (s, Some(v), o) == (site, value, object) && times(start, end)
            }
            ("site # read # from object # (its opening), from # ms to # ms", &[s, v, o, start, end]) => {
                let is_opening = self.sees_no_write(event.0) && self.opening(event.0) == value;
                of(false, false) && (s, Some(v), o) == (site, value, object) && times(start, end) && is_opening
            }
            _ => false,
        }
    }

    fn opening(&self, event: usize) -> Option<u64> {
        self.record.openings.of(self.record.events[event].object.into()).map(u64::from)
    }

    fn sees_no_write(&self, read: usize) -> bool {
        let events = &self.record.events;
        let is_on_it = |write: &usize| events[*write].is_write() && events[*write].object == events[read].object;
        !(0..events.len()).filter(is_on_it).any(|write| self.relations.vis.has(write, read))
    }

    fn is_at(&self, event: usize, place: usize) -> bool {
        usize::from(self.record.events[event].position) == place
    }

    fn leads(&self, words: &str, before: usize, event: usize) -> bool {
        let (events, Relations { rb, so, vis, .. }) = (&self.record.events, &self.relations);
        let difference = match events[before].site == events[event].site {
            true => 0,
            false => self.record.difference as usize,
        };
        match (shape(words).as_str(), &numbers(words)[..]) {
            ("it saw event #", &[from]) => from == before && vis.has(from, event),
            ("then, at the same site as event #", &[from]) => from == before && so.has(from, event),
            ("it started after event # returned", &[from]) => from == before && rb.has(from, event) && difference == 0,
            ("it started more than # ms after event # returned", &[by, from]) => {
                from == before && rb.has(from, event) && difference == by && by > 0
            }
            ("it is at # in arbitration, after event # at #", &[at, from, other]) => {
                from == before && at > other && self.is_at(event, at) && self.is_at(from, other)
            }
            ("event # saw it", &[read]) => read == before && vis.has(event, read),
            _ => false,
        }
    }

    fn is_wrong(&self, words: &str) -> bool {
        let ((a, b), vis) = (self.pair, &self.relations.vis);
        match (shape(words).as_str(), &numbers(words)[..]) {
            ("did not see event #", &[from]) => from == a && a != b && !vis.has(a, b),
            ("is at # in arbitration, before event # at #", &[at, other, place]) => {
                other == a && at < place && self.is_at(b, at) && self.is_at(a, place)
            }
            ("would have to see itself" | "would have to be before itself in arbitration", &[]) => a == b,
            ("should have held #", &[value]) => self.due() == Some(value as u64) && self.holds() != self.due(),
            ("should have held none", &[]) => self.due().is_none() && self.holds().is_some(),
            _ => false,
        }
    }

    fn holds(&self) -> Option<u64> {
        self.record.events[self.pair.0].value.map(u64::from)
    }

    /// What the pair's first event should hold: what the last write that it sees on its object wrote, or the opening.
    fn due(&self) -> Option<u64> {
        let ((read, _), events) = (self.pair, &self.record.events);
        let is_seen = |write: &usize| self.relations.vis.has(*write, read) && events[*write].is_write();
        let on_it = (0..events.len()).filter(is_seen).filter(|&write| events[write].object == events[read].object);
        match on_it.max_by_key(|&write| events[write].position) {
            Some(write) => events[write].value.map(u64::from),
            None => self.opening(read),
        }
    }
}
