//! What is measured: calls by inputs.

use crate::both::{Both, Calls, Lent};
use crate::inputs::{self, Input, SITES};
use gcr::{Model, Predicate, Refusal, Rehearsed, Verdict};
use second::baseline::{explaining, judging, reading, rehearsal};
use second::limits::MOST_EVENTS;
use second::record::Edition;
use std::rc::Rc;

/// The last two are the most events of the older editions, and of any. Records of up to 256 events are of the first
/// edition, but for those with openings or a difference and those that a rehearsal left.
pub const SIZES: [usize; 4] = [16, 64, OLDER_MOST, MOST_EVENTS];
pub const OLDER_MOST: usize = Edition::GCR2.most_events;

/// What a whole day's record is measured at.
const FULL: [usize; 2] = [OLDER_MOST, MOST_EVENTS];

/// A row of the table.
pub struct Case {
    pub call: String,
    pub input: &'static str,
    pub n: usize,
    pub both: Box<dyn Both>,
}

impl Case {
    fn new<A: 'static>(
        call: &str,
        input: &Rc<Input>,
        proved: impl Fn(&Input, &mut Lent) -> A + 'static,
        told: fn(A, &mut Lent) -> u64,
        baseline: impl Fn(&Input, &mut Lent) -> u64 + 'static,
    ) -> Case {
        let both = Box::new(Calls::new(input, proved, told, baseline));
        Case { call: call.to_string(), input: input.name, n: input.n, both }
    }

    pub fn name(&self) -> String {
        format!("{} {} {}", self.call, self.input, self.n)
    }

    pub fn check(&mut self) {
        self.both.check();
    }
}

pub fn all() -> Vec<Case> {
    let (records, disordered, opened) = (records(), disordered(), SIZES.map(inputs::opened));
    let (clocks, pending) = (SIZES.map(inputs::clocks), SIZES.map(inputs::pending));
    let passing = || records.iter().chain(&disordered).chain(&opened);
    let mut all: Vec<Case> = passing().chain(&rings()).map(read).collect();
    for &predicate in Predicate::ALL {
        all.extend(records.iter().map(|record| judge_predicate(predicate, record)));
    }
    all.extend(opened.iter().map(|record| judge_predicate(Predicate::RVal, record)));
    for predicate in [Predicate::RealTime, Predicate::RealTimeWrites] {
        all.extend(clocks.iter().map(|record| judge_predicate(predicate, record)));
    }
    all.extend(passing().chain(&clocks).chain(&pending).map(judge_all));
    all.extend(passing().map(|record| judge_model(Model::Causal, record)));
    for model in CLASSES {
        all.extend(
            FULL.map(inputs::dense).iter().chain(&FULL.map(inputs::rehearsed)).map(|record| judge_model(model, record)),
        );
    }
    all.extend(explanations());
    all.extend(scripts().iter().map(rehearse));
    all
}

/// Of each sort of model one: by a single order and all times, by one and those of a site, by an order for each object,
/// and by visibility alone. Causal, which needs every table, is measured of all records.
const CLASSES: [Model; 4] = [Model::Linearizable, Model::Sequential, Model::Processor, Model::Pram];

/// A long chain, the lowest of many equally short ones, a middle event, and the pair's second event alone.
fn explanations() -> Vec<Case> {
    let told = [
        (Predicate::CausalVisibility, SIZES.map(inputs::chain_ends_first)),
        (Predicate::CausalArbitration, SIZES.map(inputs::ties)),
        (Predicate::MonotonicReads, SIZES.map(inputs::lapse)),
        (Predicate::Pram, SIZES.map(inputs::lapse)),
    ];
    told.iter().flat_map(|(predicate, records)| records.iter().map(|record| explain(*predicate, record))).collect()
}

/// Numbered against time.
fn disordered() -> Vec<Rc<Input>> {
    SIZES.map(inputs::backward).into_iter().chain(FULL.map(inputs::by_site)).collect()
}

fn rings() -> Vec<Rc<Input>> {
    let rings = [inputs::ring, inputs::low_ring, inputs::high_ring];
    rings.iter().flat_map(|ring| SIZES.map(ring)).collect()
}

fn records() -> Vec<Rc<Input>> {
    let sparse = SIZES.map(inputs::sparse);
    sparse.into_iter().chain(SIZES.map(inputs::dense)).chain(FULL.map(inputs::rehearsed)).collect()
}

fn scripts() -> Vec<Rc<Input>> {
    let sparse = SIZES.map(inputs::sparse_script);
    let day = SIZES.map(inputs::day_script);
    let opened = SIZES.map(inputs::opened_script);
    let whole =
        [inputs::full_day_script(), inputs::opened_day_script(), inputs::closes_script(), inputs::puts_script()];
    sparse.into_iter().chain(SIZES.map(inputs::dense_script)).chain(day).chain(opened).chain(whole).collect()
}

fn read(input: &Rc<Input>) -> Case {
    Case::new(
        "read",
        input,
        |input, lent| gcr::read(&input.bytes, &mut lent.words),
        |answer, _| packed(answer.map(|()| Verdict::Met)),
        |input, lent| reading::read(&input.bytes, &mut lent.words),
    )
}

fn judge_predicate(predicate: Predicate, input: &Rc<Input>) -> Case {
    let number = predicate.number();
    Case::new(
        &format!("predicate {number}"),
        input,
        move |input, _| gcr::judge_predicate(predicate, &input.bytes),
        |answer, _| packed(answer),
        move |input, _| judging::judge_predicate(number, &input.bytes),
    )
}

fn judge_all(input: &Rc<Input>) -> Case {
    Case::new(
        "all thirteen",
        input,
        |input, _| gcr::judge_all(&input.bytes),
        |answer, lent| {
            for (word, verdict) in lent.words.iter_mut().zip(answer.iter().flatten()) {
                *word = packed(Ok(*verdict));
            }
            packed(answer.map(|_| Verdict::Met))
        },
        |input, lent| judging::judge_all(&input.bytes, &mut lent.words[..13]),
    )
}

fn judge_model(model: Model, input: &Rc<Input>) -> Case {
    let number = model.number();
    Case::new(
        &format!("model {number}"),
        input,
        move |input, _| gcr::judge_model(model, &input.bytes),
        |answer, _| packed(answer),
        move |input, _| judging::judge_model(number, &input.bytes),
    )
}

fn explain(predicate: Predicate, input: &Rc<Input>) -> Case {
    let number = predicate.number();
    Case::new(
        &format!("explain {number}"),
        input,
        move |input, lent| gcr::explain_into(predicate, &input.bytes, &mut lent.events),
        |answer, _| answer.map_or_else(|refusal| packed(Err(refusal)), |count| count as u64),
        move |input, lent| explaining::explain(number, &input.bytes, &mut lent.events),
    )
}

fn rehearse(input: &Rc<Input>) -> Case {
    Case::new(
        "rehearse",
        input,
        |input, lent| gcr::rehearse(SITES as u32, &input.openings, &input.bytes, &mut lent.record, &mut lent.answers),
        |answer, _| rehearsed(answer),
        |input, lent| {
            let openings = input.openings.as_bytes();
            rehearsal::rehearse(SITES as u32, openings, &input.bytes, &mut lent.record, &mut lent.answers)
        },
    )
}

/// A judging call's number.
fn packed(answer: Result<Verdict, Refusal>) -> u64 {
    match answer {
        Ok(Verdict::Met) => 0,
        Ok(Verdict::Broken { a, b }) => (1 << 20) + 1_024 * u64::from(a) + u64::from(b),
        Err(refusal) => (1 << 21) + 1_024 * u64::from(refusal.number) + u64::from(refusal.place),
    }
}

/// A rehearsal's number.
fn rehearsed(answer: Result<Rehearsed, Refusal>) -> u64 {
    match answer {
        Ok(done) => (done.length as u64) << 8 | done.outstanding << 24,
        Err(refusal) => refusal.number.into(),
    }
}

#[cfg(test)]
mod tests {
    use super::*;
    use std::collections::HashSet;

    #[test]
    fn both_sides_answer_alike_in_every_case() {
        all().iter_mut().for_each(Case::check);
    }

    #[test]
    fn no_two_cases_have_one_name() {
        let cases = all();
        let names: HashSet<String> = cases.iter().map(Case::name).collect();
        assert_eq!(names.len(), cases.len());
    }
}
