//! The judging calls: every model and predicate, numbers that are none, and all thirteen at once.

use super::subject::Judge;
use super::tally::{Case, Tally};
use super::{answered, covers, metamorphic, must_occur, Seeds};
use crate::generate::{self, sweeps, Sample};
use crate::models::{answers, packed, packed_all, packed_predicate, Answers};
use crate::record::Record;
use crate::samples;

const NUMBERS: [u32; 17] = [0, 1, 2, 3, 4, 5, 6, 7, 8, 9, 10, 11, 12, 13, 14, 256, u32::MAX];

/// Where those stand that are models.
const MODELS_TOLD: std::ops::RangeInclusive<usize> = 1..=13;

/// Buffers for all thirteen: none, too short, and longer than they are.
const OUT_LENGTHS: [usize; 3] = [0, 5, 15];

/// What each word of such a buffer holds before the call: no answer of it.
pub const LENT_WORD: u64 = u64::MAX;

pub fn compare(subject: &dyn Judge, seeds: &Seeds, tally: &mut Tally) {
    tally.occurrences.must(must_occur::MODELS);
    tally.occurrences.must(must_occur::EDITIONS);
    tally.occurrences.must(must_occur::LATE_BREAKS);
    tally.occurrences.must(must_occur::READS);
    tally.occurrences.must(must_occur::CLOCKS);
    tally.occurrences.must(must_occur::RETURNS);
    tally.occurrences.must(must_occur::MODEL_CLOCKS);
    tally.occurrences.must(must_occur::MODELS_APART);
    one_record(subject, &named("empty".to_string(), &[]), tally);
    for sample in samples::records() {
        one_record(subject, &named(sample.name, &sample.bytes), tally);
    }
    for (name, bytes) in sweeps::block_0().into_iter().chain(sweeps::harvest()) {
        one_record(subject, &named(name, &bytes), tally);
    }
    for (name, bytes) in sweeps::clocks().into_iter().chain(sweeps::never_returned()) {
        let case = named(name, &bytes);
        one_record(subject, &case, tally);
        metamorphic::differences(subject, &case, tally);
    }
    seeds.each(tally, |seed, tally| {
        let Sample { family, bytes } = generate::record(seed);
        let case = named(format!("{seed}-{family}"), &bytes);
        let passed = one_record(subject, &case, tally);
        // Not of all, as it takes five records for each.
        if passed && seed.is_multiple_of(8) {
            metamorphic::differences(subject, &case, tally);
        }
    });
}

fn named(name: String, input: &[u8]) -> Case<'_> {
    Case { name: format!("models-{name}"), input }
}

/// Once a record, though many calls are made of it.
pub fn count(bytes: &[u8], answers: &Answers, tally: &mut Tally) {
    answered::judged(bytes, answers, tally);
    if let Ok(answers) = answers {
        answered::models(&Record::from_bytes(bytes), answers, tally);
    }
}

/// Says whether the record passes.
pub fn one_record(subject: &dyn Judge, case: &Case, tally: &mut Tally) -> bool {
    let given = case.input.to_vec();
    let answers = answers(&given);
    count(&given, &answers, tally);
    let told = NUMBERS.map(|number| subject.judge_model(number, &given));
    for (number, told) in NUMBERS.into_iter().zip(told) {
        let (model, predicate) = (packed(number, &answers), packed_predicate(number, &answers));
        answered::number_given(number, tally);
        tally.equal(case, &format!("model {number}"), &model, &told);
        tally.equal(case, &format!("predicate {number}"), &predicate, &subject.judge_predicate(number, &given));
    }
    if answers.is_ok() {
        covers::held(&told[MODELS_TOLD], case, tally);
    }
    for words in OUT_LENGTHS {
        let (mut due, mut out) = (vec![LENT_WORD; words], vec![LENT_WORD; words]);
        let result = subject.judge_all(&given, &mut out);
        tally.equal(case, &format!("all over {words} words"), &packed_all(&answers, &mut due), &result);
        tally.equal(case, &format!("the {words} words"), &due, &out);
    }
    tally.same_bytes(case, "record afterwards", case.input, &given);
    answers.is_ok()
}
