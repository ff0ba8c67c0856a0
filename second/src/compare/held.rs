//! What must hold of a subject's own explanations, by its own judging and by the record alone. No chain is looked for.

use super::tally::{Case, Tally};
use crate::models::{refused, BROKEN, MET};
use crate::questions::Refusal;
use crate::record::{Event, Record};
use crate::relations::returned_before;

/// What a subject answered for a predicate: by its judging, by its explaining, and the slice as this left it.
pub struct Told<'a> {
    pub predicate: u32,
    pub judged: u64,
    pub answer: u64,
    pub slice: &'a [u16],
}

/// Of a number that is a predicate, or of none, and a slice that is long enough. A record that is refused is none here.
pub fn held(told: &Told, record: Option<&Record>, case: &Case, tally: &mut Tally) {
    let fault = match (told.judged, record) {
        (MET, _) => (told.answer != refused(Refusal { number: 42, place: 0 })).then_some("met, and not refused by 42"),
        (BROKEN.., Some(record)) if told.judged < 2 * BROKEN => fault(told, &record.events),
        _ => (told.answer != told.judged).then_some("refused otherwise than by its judging"),
    };
    tally.check(case, fault.is_none(), || {
        let Told { predicate, judged, answer, slice } = told;
        let entries = slice.get(..*answer as usize).unwrap_or_default();
        format!("{}: predicate {predicate} judged {judged}, answer {answer}, {entries:?}", fault.expect("one"))
    });
}

/// What is wrong with the explanation of a break.
fn fault(told: &Told, events: &[Event]) -> Option<&'static str> {
    let (a, b) = ((told.judged - BROKEN) as usize / 1_024, (told.judged - BROKEN) as usize % 1_024);
    let entries = told.slice.get(..told.answer as usize).filter(|entries| !entries.is_empty());
    let Some(entries) = entries else { return Some("broken, and no number of entries") };
    let chain: Vec<usize> = std::iter::once(a).chain(entries.iter().map(|&entry| entry.into())).collect();
    if chain.iter().any(|&event| event >= events.len()) {
        return Some("no event");
    }
    if chain.last() != Some(&b) {
        return Some("b is not the last");
    }
    match told.predicate {
        10 | 11 => fault_of_chain(&chain, events),
        5 | 8 => fault_of_middle(&chain, events),
        _ => (chain.len() != 2).then_some("not b alone"),
    }
}

fn so(events: &[Event], from: usize, to: usize) -> bool {
    events[from].site == events[to].site && returned_before(0, &events[from], &events[to])
}

fn is_step(events: &[Event], from: usize, to: usize) -> bool {
    events[to].visible[from] || so(events, from, to)
}

/// Every step is one, none leaves out events of the chain, and no lower event could stand in the place of one.
fn fault_of_chain(chain: &[usize], events: &[Event]) -> Option<&'static str> {
    if !chain.windows(2).all(|step| is_step(events, step[0], step[1])) {
        return Some("no chain of steps");
    }
    let leaves_out = |from: usize| chain[from..].iter().skip(2).any(|&to| is_step(events, chain[from], to));
    if (0..chain.len()).any(leaves_out) {
        return Some("a step leads past an event of the chain");
    }
    let stands = |part: &[usize], other| is_step(events, part[0], other) && is_step(events, other, part[2]);
    let lower = chain.windows(3).any(|part| (0..part[1]).any(|other| stands(part, other)));
    lower.then_some("a lower event could stand in the chain")
}

fn fault_of_middle(chain: &[usize], events: &[Event]) -> Option<&'static str> {
    let &[a, middle, c] = chain else { return Some("not two entries") };
    let fits = |event: usize| events[event].is_read() && events[event].visible[a] && so(events, event, c);
    if !fits(middle) {
        return Some("not between");
    }
    (0..middle).any(fits).then_some("a lower event is between")
}
