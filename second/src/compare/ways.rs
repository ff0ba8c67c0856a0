//! Wrong ways to find a chain, to see which of them records tell from the right one.

use super::occurrences::Row;
use crate::explain::{chain_by, shortest_chain};
use crate::relations::{Pairs, Relations};

/// A way to find a chain. Nothing where it finds none.
type Way = fn(&Relations, usize, usize) -> Option<Vec<usize>>;

/// Wrong ones. A record counts by the predicate whose chain is another by one of them.
pub const WRONG_WAYS: [(&str, Way); 7] = [
    ("tells: highest next event", |relations, a, b| chain_by(&relations.step, a, b, |nearer| nearer.max())),
    ("tells: lowest from the end", |relations, a, b| from_the_end(&relations.step, a, b)),
    ("tells: first chain by depth", |relations, a, b| by_depth(&relations.step, a, b)),
    ("tells: any step of hb", |relations, a, b| shortest_chain(&relations.hb, a, b)),
    ("tells: rb at all sites", |relations, a, b| shortest_chain(&relations.rb.or(&relations.vis), a, b)),
    ("tells: no step by so", |relations, a, b| shortest_chain(&relations.vis, a, b)),
    ("tells: no step by vis", |relations, a, b| shortest_chain(&relations.so, a, b)),
];

const BOTH: &[u32] = &[10, 11];

/// What must occur of them.
pub const TOLD: [Row; WRONG_WAYS.len()] = {
    let (mut rows, mut at) = ([("", BOTH); WRONG_WAYS.len()], 0);
    while at < rows.len() {
        rows[at].0 = WRONG_WAYS[at].0;
        at += 1;
    }
    rows
};

/// Each event before b in turn the lowest, and not each one after a.
fn from_the_end(step: &Pairs, a: usize, b: usize) -> Option<Vec<usize>> {
    let back = Pairs::such_that(step.events(), |from, to| step.has(to, from));
    let mut events = shortest_chain(&back, b, a)?;
    events.pop();
    events.reverse();
    events.push(b);
    Some(events)
}

/// The lowest next event where none has been yet, and back where there is none.
fn by_depth(step: &Pairs, a: usize, b: usize) -> Option<Vec<usize>> {
    let mut been = vec![false; step.events()];
    let mut chain = vec![];
    loop {
        let last = chain.last().copied().unwrap_or(a);
        if step.has(last, b) {
            chain.push(b);
            return Some(chain);
        }
        match (0..been.len()).find(|&event| step.has(last, event) && !been[event]) {
            Some(event) => {
                been[event] = true;
                chain.push(event);
            }
            None => chain.pop().map(drop)?,
        }
    }
}
