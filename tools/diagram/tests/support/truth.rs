//! Whether a sentence about a break is true of its record, read word by word.

use second::explain::shortest_chain;
use second::record::Record;
use second::relations::Relations;

pub fn is_true(sentence: &str, record: &Record) -> bool {
    let facts = Facts { record, relations: Relations::of(record), subject: numbers(sentence)[0] };
    let parts = sentence.replace(", though ", "|").replace(", as ", "|").replace(": ", "|").replace("; ", "|");
    parts.split('|').all(|part| facts.hold(part))
}

struct Facts<'a> {
    record: &'a Record,
    relations: Relations,
    /// The event that the sentence begins with.
    subject: usize,
}

pub fn numbers(text: &str) -> Vec<usize> {
    let words = text.split(|letter: char| !letter.is_ascii_digit());
    words.filter(|word| !word.is_empty()).map(|word| word.parse().expect("a number")).collect()
}

/// The text with # for each number.
pub fn shape(text: &str) -> String {
    let mut shape = String::new();
    for letter in text.chars() {
        match letter.is_ascii_digit() {
            true if shape.ends_with('#') => {}
            true => shape.push('#'),
            false => shape.push(letter),
        }
    }
    shape
}

impl Facts<'_> {
    fn hold(&self, part: &str) -> bool {
        let (shape, numbers) = (shape(part), numbers(part));
        self.of_sight(&shape, &numbers)
            .or_else(|| self.of_order(&shape, &numbers))
            .or_else(|| self.of_value(part, &shape, &numbers))
            .unwrap_or_else(|| self.is_chain(part))
    }

    fn is_on(&self, event: usize, object: usize) -> bool {
        usize::from(self.record.events[event].object) == object
    }

    fn is_at(&self, event: usize, site: usize) -> bool {
        usize::from(self.record.events[event].site) == site
    }

    /// What events see; none where the words are of another kind.
    fn of_sight(&self, shape: &str, numbers: &[usize]) -> Option<bool> {
        let (events, Relations { so, vis, .. }) = (&self.record.events, &self.relations);
        let missing = |a: usize, b: usize| so.has(a, b) && !vis.has(a, b);
        let earlier_read = |read: usize, b: usize| events[read].is_read() && so.has(read, b);
        Some(match (shape, numbers) {
            ("event # does not see event #", &[b, a]) => !vis.has(a, b),
            ("event # sees event #", &[b, a]) => vis.has(a, b),
            ("event # would have to see itself", &[a]) => !vis.has(a, a),
            ("event # is pending, but event # sees it", &[a, c]) => events[a].pending() && vis.has(a, c),
            ("event #, an earlier read at event #'s site, sees event #", &[read, b, a]) => {
                earlier_read(read, b) && vis.has(a, read)
            }
            ("event #, an earlier read at event #'s site, sees it", &[read, b]) => {
                earlier_read(read, b) && vis.has(b, read)
            }
            ("event # does not see event #, an earlier event at its site", &[b, a]) => missing(a, b),
            ("event # does not see event #, an earlier write at its site", &[b, a]) => {
                missing(a, b) && events[a].is_write()
            }
            ("event # does not see event #, an earlier event at its site on its object, #", &[b, a, object]) => {
                missing(a, b) && self.is_on(a, object) && self.is_on(b, object)
            }
            _ => return None,
        })
    }

    /// Arbitration and time.
    fn of_order(&self, shape: &str, numbers: &[usize]) -> Option<bool> {
        let (events, Relations { so, ar, .. }) = (&self.record.events, &self.relations);
        Some(match (shape, numbers) {
            ("event # is placed before event # in arbitration", &[b, a]) => ar.has(b, a),
            ("arbitration places event # before event #", &[a, b]) => ar.has(a, b),
            ("arbitration places event # before event #, both on object #", &[a, b, object]) => {
                ar.has(a, b) && self.is_on(a, object) && self.is_on(b, object)
            }
            ("arbitration would have to place event # before itself", &[a]) => !ar.has(a, a),
            ("both are writes at site # and event # is the earlier", &[site, a]) => {
                let is_write = |event: usize| events[event].is_write() && self.is_at(event, site);
                is_write(a) && is_write(self.subject) && so.has(a, self.subject)
            }
            ("event # returned at # ms, before event # started at # ms", &[a, end, b, start]) => {
                self.times((a, end), (b, start), 0)
            }
            ("event #, a write, returned at # ms, before event # started at # ms", &[a, end, b, start]) => {
                events[a].is_write() && self.times((a, end), (b, start), 0)
            }
            ("event # returned at # ms, more than # ms before event # started at # ms", &[a, end, by, b, start]) => {
                self.times((a, end), (b, start), by)
            }
            (
                "event #, a write, returned at # ms, more than # ms before event # started at # ms",
                &[a, end, by, b, start],
            ) => events[a].is_write() && self.times((a, end), (b, start), by),
            (shape, numbers) if shape.starts_with("event # leads to event # by ") => self.leads(shape, numbers),
            _ => return None,
        })
    }

    /// What a read holds.
    fn of_value(&self, part: &str, shape: &str, numbers: &[usize]) -> Option<bool> {
        Some(match (shape, numbers) {
            (shape, _) if shape.contains(" holds ") => self.holds(part),
            ("it sees no write on object #, which has no opening", &[object]) => {
                self.last_write(object).is_none() && self.opening(object).is_none()
            }
            ("it sees no write on object #, whose opening is #", &[object, opening]) => {
                self.last_write(object).is_none() && self.opening(object) == Some(opening as u32)
            }
            ("of the writes on object # that it sees, event # is the last in arbitration", &[object, last]) => {
                self.last_write(object) == Some(last)
            }
            _ => return None,
        })
    }

    /// a's return, b's start, and by how much their clocks may differ.
    fn times(&self, (a, end): (usize, usize), (b, start): (usize, usize), by: usize) -> bool {
        let (first, second) = (&self.record.events[a], &self.record.events[b]);
        let skew = if first.site == second.site { 0 } else { self.record.difference };
        self.relations.rb.has(a, b)
            && (first.end, second.start) == (Some(end as u64), start as u64)
            && skew as usize == by
    }

    /// `event 2 holds 7, not 8`: the value that the read has, and the one that its last visible write has, or where there
    /// is none its object's opening.
    fn holds(&self, part: &str) -> bool {
        let (_, values) = part.split_once(" holds ").expect("it is there");
        let (held, due) = values.split_once(", not ").expect("it is there");
        let read = &self.record.events[self.subject];
        let text = |value: Option<u32>| value.map_or("none".to_string(), |value| value.to_string());
        let object = read.object.into();
        let right = match self.last_write(object) {
            Some(write) => self.record.events[write].value,
            None => self.opening(object),
        };
        read.is_read() && !read.pending() && held != due && text(read.value) == held && text(right) == due
    }

    fn opening(&self, object: usize) -> Option<u32> {
        self.record.openings.of(object)
    }

    fn last_write(&self, object: usize) -> Option<usize> {
        let events = &self.record.events;
        let is_seen = |&write: &usize| self.relations.vis.has(write, self.subject) && events[write].is_write();
        let is_on = |&write: &usize| self.is_on(write, object);
        (0..events.len()).filter(is_seen).filter(is_on).max_by_key(|&write| events[write].position)
    }

    /// First, last, and those between: all, or the first five, how many more there are, and the last of those.
    fn leads(&self, shape: &str, numbers: &[usize]) -> bool {
        let Some(chain) = shortest_chain(&self.relations.step, numbers[0], numbers[1]) else { return false };
        let (between, named) = (&chain[..chain.len() - 1], &numbers[2..]);
        let is_named = match (shape.ends_with(" and # more, the last of them event #"), named) {
            (true, [first @ .., more, last]) => {
                let (of_way, others) = between.split_at(5);
                of_way == first && others.len() == *more && others.len() > 1 && others.last() == Some(last)
            }
            _ => between == named && (5..=6).contains(&between.len()),
        };
        is_named && shape.contains(&format!(" by {} through events #, ", self.kinds(numbers[0], &chain)))
    }

    /// What the steps of a chain are of; one of both counts as visibility.
    fn kinds(&self, first: usize, chain: &[usize]) -> &'static str {
        let from = std::iter::once(&first).chain(chain);
        let seen: Vec<bool> = from.zip(chain).map(|(&a, &b)| self.relations.vis.has(a, b)).collect();
        match (seen.contains(&true), seen.contains(&false)) {
            (true, true) => "visibility and site order",
            (true, false) => "visibility",
            _ => "site order",
        }
    }

    /// `event 0 is seen by event 1, which is before event 2 at site 1`
    fn is_chain(&self, part: &str) -> bool {
        let mut here = numbers(part)[0];
        part.split(", which ").all(|step| {
            let step = step.strip_prefix(&format!("event {here} ")).unwrap_or(step);
            let (from, numbers) = (here, numbers(step));
            here = numbers[0];
            match shape(step).as_str() {
                "is seen by event #" => self.relations.vis.has(from, here),
                "is before event # at site #" => self.relations.so.has(from, here) && self.is_at(here, numbers[1]),
                _ => false,
            }
        })
    }
}
