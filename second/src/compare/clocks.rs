//! Counts what Change 4 brought: differences of clocks, and whether RealTime and RealTimeWrites tell one rule from
//! another.

use super::tally::Tally;
use crate::limits::MOST_SITES;
use crate::models::answer_of;
use crate::predicates::Answer;
use crate::questions::Refusal;
use crate::record::*;
use crate::relations::returned_before;

/// A record of right length with bytes in the difference's place that are not zero, by its letters and by what refuses
/// it.
pub const DIFFERENCE: &str = "GCR2 with a difference";
pub const DIFFERENCE_IN_GCR3: &str = "GCR3 with a difference";
pub const DIFFERENCE_IN_GCR1: &str = "GCR1 with bytes of a difference";

/// The difference of a record that was judged: 0, 1, the largest, and 2 for any other.
pub const DIFFERENCES: &str = "difference of clocks";
/// One that is not 0, by how many sites have events; 3 for up to seven.
pub const OF_SITES: &str = "difference, sites with events";

/// What 3 or 4 say with a difference that is not 0, beside what they would say with 0.
pub const MET_BY_IT: &str = "met only by the difference";
/// Of more events than a word has bits.
pub const LARGE_MET_BY_IT: &str = "met only by it, over 64 events";
pub const BROKEN_LATER: &str = "broken later by the difference";
pub const BROKEN_ALIKE: &str = "broken for all the difference";
/// A model, likewise.
pub const MODEL_MET_BY_IT: &str = "model met only by the difference";

/// A rule of which event returned before which.
pub type Rule = fn(u32, &Event, &Event) -> bool;

/// Wrong rules. A record counts where 3 or 4 would have another answer by one of them.
pub const NO_DIFFERENCE: &str = "tells: no difference";
pub const AT_DIFFERENCE: &str = "tells: before at the difference";
pub const NOT_ONE_ABOVE: &str = "tells: not before one above it";
pub const SUM_WRAPS: &str = "tells: return + difference wraps";
pub const START_WRAPS: &str = "tells: start - difference wraps";
pub const AT_ONE_SITE: &str = "tells: difference at one site too";
pub const NOT_AT_ONE_SITE: &str = "tells: never before at one site";

pub const WRONG_RULES: [(&str, Rule); 7] = [
    (NO_DIFFERENCE, |_, a, b| returned_before(0, a, b)),
    (AT_DIFFERENCE, |difference, a, b| between(a, b, |end| sum(end, difference) <= b.start.into())),
    (NOT_ONE_ABOVE, |difference, a, b| between(a, b, |end| sum(end, difference) + 1 < b.start.into())),
    (SUM_WRAPS, |difference, a, b| between(a, b, |end| end.wrapping_add(difference.into()) < b.start)),
    (START_WRAPS, |difference, a, b| between(a, b, |end| end < b.start.wrapping_sub(difference.into()))),
    (AT_ONE_SITE, |difference, a, b| a.end.is_some_and(|end| sum(end, difference) < b.start.into())),
    (NOT_AT_ONE_SITE, |difference, a, b| a.site != b.site && returned_before(difference, a, b)),
];

/// As a whole number that does not wrap.
pub fn sum(end: u64, difference: u32) -> u128 {
    u128::from(end) + u128::from(difference)
}

/// Wrong between sites alone, by what is said of a return.
fn between(a: &Event, b: &Event, before: impl Fn(u64) -> bool) -> bool {
    match a.site == b.site {
        true => returned_before(0, a, b),
        false => a.end.is_some_and(before),
    }
}

/// A record that was read.
pub fn read(bytes: &[u8], refusal: Option<Refusal>, tally: &mut Tally) {
    let number = refusal.map_or(0, |refusal| refusal.number);
    if number == 3 || bytes[DIFFERENCE_AT] == [0; 4] {
        return;
    }
    match &bytes[..4] {
        b"GCR1" => tally.occurred(DIFFERENCE_IN_GCR1, number),
        b"GCR2" => tally.occurred(DIFFERENCE, number),
        b"GCR3" => tally.occurred(DIFFERENCE_IN_GCR3, number),
        _ => (),
    }
}

/// A record that was judged, with the answers of all thirteen.
pub fn judged(record: &Record, answers: &[Answer], tally: &mut Tally) {
    let difference = record.difference;
    tally.occurred(DIFFERENCES, if difference == u32::MAX { difference } else { difference.min(2) });
    if difference > 0 {
        tally.occurred(OF_SITES, told_sites(record));
        beside_none(record, answers, tally);
        for (sort, rule) in WRONG_RULES {
            rule_told(sort, answers, &real_time(record, rule), tally);
        }
    }
}

/// Models that 3 or 4 would break if it weren't for the difference.
pub fn models(record: &Record, answers: &[Answer], tally: &mut Tally) {
    let mut without = answers.to_vec();
    without[2..4].copy_from_slice(&without_difference(record));
    for model in (1..=13).filter(|&model| answer_of(model, answers) == Answer::Met) {
        if answer_of(model, &without) != Answer::Met {
            tally.occurred(MODEL_MET_BY_IT, model);
        }
    }
}

fn told_sites(record: &Record) -> u32 {
    let with_events = (0..record.sites).filter(|&site| record.events.iter().any(|event| event.site == site));
    match with_events.count() {
        MOST_SITES => MOST_SITES as u32,
        count => count.min(3) as u32,
    }
}

fn beside_none(record: &Record, answers: &[Answer], tally: &mut Tally) {
    for (predicate, without) in (3..).zip(without_difference(record)) {
        match (answers[predicate as usize - 1], without) {
            (_, Answer::Met) => (),
            (Answer::Met, _) => {
                tally.occurred(MET_BY_IT, predicate);
                if record.events.len() > 64 {
                    tally.occurred(LARGE_MET_BY_IT, predicate);
                }
            }
            (answer, without) if answer == without => tally.occurred(BROKEN_ALIKE, predicate),
            _ => tally.occurred(BROKEN_LATER, predicate),
        }
    }
}

fn rule_told(sort: &'static str, answers: &[Answer], wrong: &[Answer; 2], tally: &mut Tally) {
    for (predicate, wrong) in (3..).zip(wrong) {
        if answers[predicate as usize - 1] != *wrong {
            tally.occurred(sort, predicate);
        }
    }
}

fn without_difference(record: &Record) -> [Answer; 2] {
    real_time(record, |_, a, b| returned_before(0, a, b))
}

/// What 3 and 4 say by this rule.
fn real_time(record: &Record, rule: Rule) -> [Answer; 2] {
    let (events, difference) = (&record.events, record.difference);
    let break_of = |a: usize| {
        let against = |b: &usize| events[*b].position <= events[a].position;
        let mut others = (0..events.len()).filter(against);
        others.find(|&b| rule(difference, &events[a], &events[b])).map(|b| Answer::Broken(a, b))
    };
    let mut writes = (0..events.len()).filter(|&a| events[a].is_write());
    [(0..events.len()).find_map(break_of), writes.find_map(break_of)].map(|broken| broken.unwrap_or(Answer::Met))
}
