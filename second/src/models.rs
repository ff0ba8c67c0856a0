//! The models, and the packing of answers into one number.

use crate::predicates::{Answer, Judged, PREDICATES};
use crate::questions::{ask, Refusal};

/// Model k's name stands at k - 1, and so do its predicates below.
pub const NAMES: [&str; 13] = [
    "linearizable",
    "regular",
    "sequential",
    "causal",
    "real-time causal",
    "processor",
    "per-object sequential",
    "Pram",
    "monotonic reads",
    "read your writes",
    "monotonic writes",
    "writes follow reads",
    "slow memory",
];

pub const MODELS: [&[u32]; 13] = [
    &[2, 3, 1],
    &[2, 4, 1],
    &[2, 9, 1],
    &[10, 11, 1],
    &[10, 11, 3, 1],
    &[13, 9, 1],
    &[13, 12, 1],
    &[9],
    &[5],
    &[6],
    &[7],
    &[8],
    &[12],
];

pub const MET: u64 = 0;
pub const BROKEN: u64 = 1_048_576;
pub const REFUSED: u64 = 2_097_152;

pub fn refused(refusal: Refusal) -> u64 {
    REFUSED + 1_024 * refusal.number as u64 + refusal.place as u64
}

/// The refusal that a call's number holds, where it holds one.
pub fn refusal_in(packed: u64) -> Option<Refusal> {
    let inside = packed.checked_sub(REFUSED)?;
    Some(Refusal { number: (inside / 1_024) as u32, place: (inside % 1_024) as u32 })
}

pub fn judged(answer: Answer) -> u64 {
    match answer {
        Answer::Met => MET,
        Answer::Broken(a, b) => BROKEN + 1_024 * a as u64 + b as u64,
    }
}

/// Where in a model's list the first broken predicate stands.
pub fn first_broken(list: &[u32], answers: &[Answer]) -> Option<usize> {
    list.iter().position(|&predicate| answers[predicate as usize - 1] != Answer::Met)
}

/// The number of the first broken predicate of a model's list.
pub fn broken_by(model: u32, answers: &[Answer]) -> Option<u32> {
    let list = MODELS[model as usize - 1];
    first_broken(list, answers).map(|at| list[at])
}

/// It gives the answer.
pub fn answer_of(model: u32, answers: &[Answer]) -> Answer {
    broken_by(model, answers).map_or(Answer::Met, |predicate| answers[predicate as usize - 1])
}

/// What the thirteen predicates say of a record, in order, or what refuses it.
pub type Answers = Result<Vec<Answer>, Refusal>;

pub fn answers(bytes: &[u8]) -> Answers {
    ask(bytes).map(|record| Judged::new(&record).answers())
}

pub fn judge_model(model: u32, bytes: &[u8]) -> u64 {
    packed(model, &answers(bytes))
}

/// The host call's number for a model, from a record's answers.
pub fn packed(model: u32, answers: &Answers) -> u64 {
    packed_by(answer_of, model, answers)
}

/// The same for a predicate.
pub fn packed_predicate(predicate: u32, answers: &Answers) -> u64 {
    packed_by(|predicate, answers| answers[predicate as usize - 1], predicate, answers)
}

fn packed_by(answer: impl Fn(u32, &[Answer]) -> Answer, number: u32, answers: &Answers) -> u64 {
    match answers {
        _ if !(1..=13).contains(&number) => refused(Refusal { number: 2, place: 0 }),
        Err(refusal) => refused(*refusal),
        Ok(answers) => judged(answer(number, answers)),
    }
}

/// All thirteen over the front of `out`, as many as fit. A refusal stands in each of their words too, so that none
/// reads as met.
pub fn packed_all(answers: &Answers, out: &mut [u64]) -> u64 {
    for (word, predicate) in out.iter_mut().zip(PREDICATES) {
        *word = packed_predicate(predicate, answers);
    }
    match answers {
        Err(refusal) => refused(*refusal),
        Ok(_) => 0,
    }
}
