//! The rehearsal call: result, both buffers to the last byte, the equation of its copies, and the record judged
//! causal.

use super::copies::Copies;
use super::subject::Rehearser;
use super::tally::{Case, Tally};
use super::{answered, harvest, must_occur, opened, Seeds};
use crate::generate::random::Random;
use crate::generate::scripts::{self, as_read, Rehearsal};
use crate::generate::sweeps;
use crate::predicates::{Answer, Judged};
use crate::questions::ask;
use crate::record::Record;
use crate::store::{rehearse, Outcome};

pub fn compare(subject: &dyn Rehearser, seeds: &Seeds, tally: &mut Tally) {
    tally.occurrences.must(must_occur::REHEARSAL);
    tally.occurrences.must(must_occur::STORE_OPENINGS);
    tally.occurrences.must(must_occur::STORE_EVENTS);
    tally.occurrences.must(must_occur::CALLS);
    for (name, rehearsal) in sweeps::rehearsals().into_iter().chain(sweeps::full_stores()) {
        one(subject, 0, &rehearsal, format!("rehearsal-{name}"), tally);
    }
    seeds.each(tally, |seed, tally| {
        one(subject, seed, &scripts::rehearsal(seed), format!("rehearsal-{seed}"), tally);
    });
}

pub fn one(subject: &dyn Rehearser, seed: u64, given: &Rehearsal, name: String, tally: &mut Tally) {
    let case = &Case { name, input: &as_read(given) };
    let mut random = Random::new(seed);
    let mut record = random.noise(given.record_bytes);
    let mut answers = random.noise(given.answer_bytes);
    let (mut due_record, mut due_answers) = (record.clone(), answers.clone());
    let due = rehearse(given.sites, &given.openings, &given.script, &mut due_record, &mut due_answers);
    count_occurrences(given, &due, &due_record, &due_answers, tally);
    let (openings, script) = (given.openings.clone(), given.script.clone());
    let result = Outcome::unpacked(subject.rehearse(given.sites, &openings, &script, &mut record, &mut answers));
    tally.same_bytes(case, "record buffer", &due_record, &record);
    tally.same_bytes(case, "answer buffer", &due_answers, &answers);
    tally.same_bytes(case, "openings afterwards", &given.openings, &openings);
    tally.same_bytes(case, "script afterwards", &given.script, &script);
    tally.equal(case, "result", &due, &result);
    copies_add_up(given, &result, &answers, case, tally);
    if due.number == 0 {
        causal(&record[..due.length], case, tally);
    }
}

/// Counts what the second checker answers, what its reads hold, and what became of the copies.
pub fn count_occurrences(given: &Rehearsal, due: &Outcome, record: &[u8], answers: &[u8], tally: &mut Tally) {
    answered::rehearsal(due.number, &given.script, answers, tally);
    opened::openings_given(due.number, &given.openings, tally);
    if due.number == 22 {
        harvest::short_buffer(given.record_bytes, tally);
    }
    if due.number == 0 {
        let record = Record::from_bytes(record);
        opened::reads(&record, tally);
        harvest::rehearsed(&record, tally);
        answered::copies(&Copies::of(given.sites, &given.script, answers, due.outstanding), tally);
    }
}

/// By the subject's own words alone: the equation where it ran the script, and nothing told where it refused.
fn copies_add_up(given: &Rehearsal, result: &Outcome, answers: &[u8], case: &Case, tally: &mut Tally) {
    if result.number == 0 {
        let copies = Copies::of(given.sites, &given.script, answers, result.outstanding);
        tally.check(case, copies.add_up(), || format!("the copies do not add up: {copies:?}"));
    } else {
        tally.equal(case, "refused result", &Outcome::refused(result.number), result);
    }
}

/// Questions 3 to 10 pass, and predicates 10, 11 and 1 are met.
fn causal(record: &[u8], case: &Case, tally: &mut Tally) {
    let answers = ask(record).map(|record| {
        let judged = Judged::new(&record);
        [10, 11, 1].map(|predicate| judged.answer(predicate))
    });
    tally.equal(case, "causal", &Ok([Answer::Met; 3]), &answers);
}
