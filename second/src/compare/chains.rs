//! Counts what the chains of 10 and 11 are like, and which wrong ways to find one they tell from the right one.

use super::tally::Tally;
use super::ways::WRONG_WAYS;
use crate::explain::{steps_to, Explanation};
use crate::limits::ROW_WORDS;
use crate::predicates::Judged;
use crate::relations::{Pairs, Relations};

/// From an event to another and to itself, by the number of steps: 4 for up to 63, 64 for up to 254, 256 for up to 382.
pub const CHAIN_OF_10: &str = "chain of 10, steps";
pub const CHAIN_OF_11: &str = "chain of 11, steps";
pub const RING_OF_10: &str = "ring of 10, steps";
pub const RING_OF_11: &str = "ring of 11, steps";

/// From an event to another, by what its steps are.
pub const BY_SO: &str = "chain by so alone";
pub const BY_VIS: &str = "chain by vis alone";
pub const BY_BOTH: &str = "chain by so and by vis";
pub const BY_SO_AGAIN: &str = "chain by so, vis and so again";

/// By the numbers that it goes through.
pub const ABOVE_ENDS: &str = "through one above both ends";
pub const BELOW_ENDS: &str = "through one below both ends";
pub const ALL_WORDS: &str = "through all six words of a row";

/// Through an event that never returned, from which only vis leads on.
pub const PENDING_BETWEEN: &str = "through a pending event";

/// In a record of 32 events and more, where one of two leads to the other in a step for two pairs of three.
pub const DENSE: &str = "in a dense record";

/// By the other ways that there are from an event of the chain.
pub const TIED_AT_FIRST: &str = "equally short from a";
pub const TIED_LATER: &str = "equally short, but not from a";
pub const LOWER_IS_LONGER: &str = "lower event after a, longer chain";
pub const LATER_IS_LONGER: &str = "lower later event, longer chain";
pub const LOWER_IS_LOST: &str = "lower event that leads away";

/// Of a predicate that is 10 or 11.
pub fn chain(judged: &Judged, predicate: u32, explanation: &Explanation, tally: &mut Tally) {
    let Explanation { a, events } = explanation;
    let b = *events.last().expect("never empty");
    let sort = match (predicate, *a == b) {
        (10, false) => CHAIN_OF_10,
        (10, true) => RING_OF_10,
        (_, false) => CHAIN_OF_11,
        (_, true) => RING_OF_11,
    };
    tally.occurred(sort, told_steps(events.len()));
    let mut sorts = sorts_of_numbers(*a, b, events);
    sorts.extend((*a != b).then(|| sort_of_steps(&judged.relations, *a, events)).into_iter().flatten());
    let pending = |&event: &usize| event != b && judged.events[event].pending();
    sorts.extend(events.iter().any(pending).then_some(PENDING_BETWEEN));
    sorts.extend(is_dense(&judged.relations.step).then_some(DENSE));
    sorts.extend(other_ways(&judged.relations.step, *a, b, events));
    for (sort, way) in WRONG_WAYS {
        sorts.extend((way(&judged.relations, *a, b).as_ref() != Some(events)).then_some(sort));
    }
    sorts.into_iter().for_each(|sort| tally.occurred(sort, predicate));
}

fn told_steps(steps: usize) -> u32 {
    match steps {
        4..64 => 4,
        64..=254 => 64,
        256..=382 => 256,
        _ => steps as u32,
    }
}

/// Each step's first event and second.
pub fn steps_of(a: usize, events: &[usize]) -> impl Iterator<Item = (usize, usize)> + '_ {
    std::iter::once(a).chain(events.iter().copied()).zip(events.iter().copied())
}

fn sort_of_steps(relations: &Relations, a: usize, events: &[usize]) -> Vec<&'static str> {
    let so = steps_of(a, events).filter(|&(from, to)| relations.so.has(from, to)).count();
    let vis = steps_of(a, events).filter(|&(from, to)| relations.vis.has(from, to)).count();
    match events.len() {
        all if so == all => vec![BY_SO],
        all if vis == all => vec![BY_VIS],
        all if all - vis > 1 => vec![BY_BOTH, BY_SO_AGAIN],
        _ => vec![BY_BOTH],
    }
}

fn sorts_of_numbers(a: usize, b: usize, events: &[usize]) -> Vec<&'static str> {
    let mut sorts = vec![];
    sorts.extend(events.iter().any(|&event| event > a.max(b)).then_some(ABOVE_ENDS));
    sorts.extend(events.iter().any(|&event| event < a.min(b)).then_some(BELOW_ENDS));
    sorts.extend((0..ROW_WORDS).all(|word| events.iter().any(|event| event / 64 == word)).then_some(ALL_WORDS));
    sorts
}

fn is_dense(step: &Pairs) -> bool {
    let n = step.events();
    let related = (0..n).map(|b| (0..b).filter(|&a| step.has(a, b) || step.has(b, a)).count());
    n >= 32 && 3 * related.sum::<usize>() > n * (n - 1)
}

fn other_ways(step: &Pairs, a: usize, b: usize, events: &[usize]) -> Vec<&'static str> {
    let steps = steps_to(step, b);
    let (mut tied, mut sorts) = (false, vec![]);
    for (at, (from, to)) in steps_of(a, events).enumerate() {
        let left = events.len() - 1 - at;
        let next: Vec<usize> = (0..steps.len()).filter(|&event| step.has(from, event)).collect();
        let ties = left > 0 && next.iter().any(|&other| other != to && steps[other] == Some(left));
        sorts.extend((ties && !tied).then_some(if at == 0 { TIED_AT_FIRST } else { TIED_LATER }));
        tied |= ties;
        let lower = || next.iter().take_while(|&&other| other < to);
        let longer = lower().any(|&other| steps[other] > Some(left));
        sorts.extend(longer.then_some(if at == 0 { LOWER_IS_LONGER } else { LATER_IS_LONGER }));
        sorts.extend(lower().any(|&other| steps[other].is_none()).then_some(LOWER_IS_LOST));
    }
    sorts.sort_unstable();
    sorts.dedup();
    sorts
}
