//! The call that explains: answer, and every entry of slices of many lengths, also past their ends.

use super::answered::{self, NO_PREDICATE, PREDICATE_BROKEN, PREDICATE_MET};
use super::held::{held, Told};
use super::subject::Explainer;
use super::tally::{Case, Tally};
use super::{chains, middles, must_occur, Seeds};
use crate::explain::{told, Explanation, Explanations};
use crate::generate::random::Random;
use crate::generate::{self, sweeps, Sample};
use crate::limits::ENTRIES;
use crate::predicates::{Judged, PREDICATES};
use crate::questions::{ask, Refusal};
use crate::record::Record;
use crate::samples;

/// All predicates, and numbers that are none.
const NUMBERS: [u32; 17] = [0, 1, 2, 3, 4, 5, 6, 7, 8, 9, 10, 11, 12, 13, 14, 256, u32::MAX];

/// Slices that are too short, and others. What is lent is the front of one that is longer than all of them.
const LENGTHS: [usize; 7] = [0, 1, 256, 383, 384, 385, 400];
const BEYOND: usize = 410;

/// What a slice that is too short would have been answered otherwise: 0 is an explanation.
pub const TOO_SHORT: &str = "slice too short, else";
/// And what a number that is no predicate would: 0 is a record that passes.
pub const NO_PREDICATE_ELSE: &str = "no such predicate, else";

pub fn compare(subject: &dyn Explainer, seeds: &Seeds, tally: &mut Tally) {
    tally.occurrences.must(must_occur::EXPLAIN);
    tally.occurrences.must(must_occur::CHAINS);
    tally.occurrences.must(must_occur::CHAINS_TOLD);
    tally.occurrences.must(must_occur::MIDDLES);
    let samples = samples::records().map(|sample| (sample.name, sample.bytes));
    let fixed = [generate::chains::fixed(), sweeps::clocks(), sweeps::never_returned()].concat();
    for (name, bytes) in samples.chain(fixed).chain([("empty".to_string(), vec![])]) {
        one_record(subject, 0, &Case { name: format!("explain-{name}"), input: &bytes }, tally);
    }
    seeds.each(tally, |seed, tally| {
        let Sample { family, bytes } = generate::to_explain(seed);
        one_record(subject, seed, &Case { name: format!("explain-{seed}-{family}"), input: &bytes }, tally);
    });
}

/// What is asked about one record, and what the second checker finds of it.
struct Asked<'a> {
    subject: &'a dyn Explainer,
    case: &'a Case<'a>,
    record: Option<&'a Record>,
    explanations: Explanations,
}

pub fn one_record(subject: &dyn Explainer, seed: u64, case: &Case, tally: &mut Tally) {
    let record = ask(case.input);
    let explanations = found(&record, tally);
    let asked = Asked { subject, case, record: record.as_ref().ok(), explanations };
    let mut random = Random::new(seed);
    for number in NUMBERS {
        let lent: Vec<u16> = (0..BEYOND).map(|_| entry(&mut random)).collect();
        for length in LENGTHS {
            asked.one_call(number, &lent, length, tally);
        }
        asked.own_answer(number, lent, tally);
    }
}

/// What the second checker finds of a record, counted once, though many calls are made of it.
pub fn found(record: &Result<Record, Refusal>, tally: &mut Tally) -> Explanations {
    answered::reading(record.as_ref().err().copied(), tally);
    let explanations = record.as_ref().map_err(|refusal| *refusal).map(|record| {
        let judged = Judged::new(record);
        let explanations = judged.explanations();
        count(&judged, &explanations, tally);
        explanations
    });
    NUMBERS.into_iter().for_each(|number| count_refusals(number, &explanations, tally));
    explanations
}

/// What an entry holds before the call: never 0, and no event.
fn entry(random: &mut Random) -> u16 {
    random.word() as u16 | 0x8000
}

impl Asked<'_> {
    fn one_call(&self, number: u32, lent: &[u16], length: usize, tally: &mut Tally) {
        let (mut due, mut events, given) = (lent.to_vec(), lent.to_vec(), self.case.input.to_vec());
        let due_answer = told(number, &self.explanations, &mut due[..length]);
        let answer = self.subject.explain(number, &given, &mut events[..length]);
        tally.equal(self.case, &format!("predicate {number} over {length} entries"), &due_answer, &answer);
        let differs = (0..BEYOND).find(|&at| due[at] != events[at]).map(|at| (at, due[at], events[at]));
        tally.equal(self.case, &format!("predicate {number}, first differing of {length} entries"), &None, &differs);
        tally.same_bytes(self.case, "record afterwards", self.case.input, &given);
    }

    /// By the subject's own judging. The second checker's chains have no part in it.
    fn own_answer(&self, predicate: u32, mut slice: Vec<u16>, tally: &mut Tally) {
        let judged = self.subject.judge_predicate(predicate, self.case.input);
        let answer = self.subject.explain(predicate, self.case.input, &mut slice);
        held(&Told { predicate, judged, answer, slice: &slice }, self.record, self.case, tally);
    }
}

/// What would refuse a slice that is too short, or any, for this number.
fn count_refusals(number: u32, explanations: &Explanations, tally: &mut Tally) {
    let refusal = explanations.as_ref().err().map_or(0, |refusal| refusal.number);
    if !PREDICATES.contains(&number) {
        tally.occurred(NO_PREDICATE, 2);
        tally.occurred(NO_PREDICATE_ELSE, refusal);
        tally.occurred(NO_PREDICATE_ELSE, 41);
        return;
    }
    let met = explanations.as_ref().is_ok_and(|explanations| explanations[number as usize - 1].is_none());
    tally.occurred(TOO_SHORT, if met { 42 } else { refusal });
}

/// Of a record that passes.
fn count(judged: &Judged, explanations: &[Option<Explanation>], tally: &mut Tally) {
    for (predicate, explanation) in PREDICATES.zip(explanations) {
        let Some(explanation) = explanation else {
            tally.occurred(PREDICATE_MET, predicate);
            continue;
        };
        tally.occurred(PREDICATE_BROKEN, predicate);
        match predicate {
            10 | 11 => chains::chain(judged, predicate, explanation, tally),
            5 | 8 => middles::middle(judged, predicate, explanation, tally),
            _ => middles::alone(predicate, explanation, tally),
        }
    }
}

const _: () = assert!(LENGTHS[3] + 1 == ENTRIES && LENGTHS[6] < BEYOND);
