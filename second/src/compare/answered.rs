//! The sorts of answers that an input can get, and counting those that it gets.

use super::copies::{calls_answered, Copies};
use super::tally::Tally;
use super::{clocks, covers, harvest, opened, returned, states};
use crate::limits::{MOST_EVENTS, MOST_SITES};
use crate::models::{first_broken, Answers, MODELS};
use crate::predicates::{Answer, PREDICATES};
use crate::questions::Refusal;
use crate::record::{u32_at, Record};

pub const PASSED: &str = "passed";
pub const NO_WORK: &str = "work slice too short";
pub const AT_PLACE_0: &str = "refused at place 0";
pub const ABOVE_PLACE_0: &str = "refused above place 0";
pub const NO_PREDICATE: &str = "no such predicate";
pub const NO_MODEL: &str = "no such model";
pub const PREDICATE_MET: &str = "predicate met";
pub const PREDICATE_BROKEN: &str = "predicate broken";
pub const MODEL_MET: &str = "model met";
/// By where in the model's list its first broken predicate stands.
pub const MODEL_BROKEN: [&str; 4] =
    ["model broken by its 1st", "model broken by its 2nd", "model broken by its 3rd", "model broken by its 4th"];
pub const REHEARSED: &str = "rehearsal";
pub const PUT: &str = "put";
pub const GET_FOUND: &str = "get that found a value";
pub const GET_NONE: &str = "get that found none";
pub const GET_REFUSED: &str = "get refused";
pub const DELIVERY: &str = "delivery";
pub const CLOSE_COPIES: &str = "close that delivered copies";
pub const CLOSE_NONE: &str = "close with none lacking";
pub const CLOSE_REFUSED: &str = "close refused";
pub const NO_KIND: &str = "call of no kind";
/// By what became of the copies of a script's puts.
pub const NO_EVENT: &str = "no put or get";
pub const GETS_ALONE: &str = "gets alone";
pub const ONE_SITE: &str = "puts at one site";
pub const NONE_BY_DELIVERIES: &str = "none outstanding, by deliveries";
pub const NONE_BY_CLOSES: &str = "none outstanding, by closes too";
pub const ALL_OUTSTANDING: &str = "all copies outstanding";
pub const MOST_OUTSTANDING: &str = "all 2,688 copies outstanding";
pub const AFTER_DELIVERIES: &str = "outstanding after deliveries";
pub const AFTER_CLOSES: &str = "outstanding after closes";
pub const AFTER_BOTH: &str = "outstanding after both";

/// A full store of as many sites as there can be, all of it puts.
const MOST_COPIES: u64 = (MOST_EVENTS * (MOST_SITES - 1)) as u64;

/// What a reading answers.
pub fn reading(refusal: Option<Refusal>, tally: &mut Tally) {
    match refusal {
        None => tally.occurred(PASSED, 0),
        Some(Refusal { number: 1, .. }) => tally.occurred(NO_WORK, 1),
        Some(Refusal { number, place: 0 }) => tally.occurred(AT_PLACE_0, number),
        Some(Refusal { number, .. }) => tally.occurred(ABOVE_PLACE_0, number),
    }
}

/// A reading of a record, with its edition and its states.
pub fn record(bytes: &[u8], refusal: Option<Refusal>, tally: &mut Tally) {
    reading(refusal, tally);
    edition(bytes, refusal, tally);
}

/// What block 0 of a record says, how large it is, which slot goes wrong and how, and what refused it.
pub fn edition(bytes: &[u8], refusal: Option<Refusal>, tally: &mut Tally) {
    opened::edition(bytes, refusal, tally);
    harvest::read(bytes, refusal, tally);
    clocks::read(bytes, refusal, tally);
    states::read(bytes, refusal, tally);
}

/// A reading and what was found of the predicates, with what the record's reads hold and its difference makes.
pub fn judged(bytes: &[u8], answers: &Answers, tally: &mut Tally) {
    record(bytes, answers.as_ref().err().copied(), tally);
    if let Ok(answers) = answers {
        predicates(answers, tally);
        harvest::judged(answers, tally);
        let record = Record::from_bytes(bytes);
        opened::reads(&record, tally);
        opened::read_broken(&record, answers[0], tally);
        clocks::judged(&record, answers, tally);
        returned::judged(&record, answers, tally);
    }
}

/// A number given to both judging calls: question 2.
pub fn number_given(number: u32, tally: &mut Tally) {
    if !PREDICATES.contains(&number) {
        tally.occurred(NO_MODEL, 2);
        tally.occurred(NO_PREDICATE, 2);
    }
}

pub fn predicates(answers: &[Answer], tally: &mut Tally) {
    for (predicate, &answer) in PREDICATES.zip(answers) {
        tally.occurred(if answer == Answer::Met { PREDICATE_MET } else { PREDICATE_BROKEN }, predicate);
    }
}

pub fn models(record: &Record, answers: &[Answer], tally: &mut Tally) {
    clocks::models(record, answers, tally);
    covers::kept_apart(answers, tally);
    for (model, list) in (1..).zip(MODELS) {
        let sort = first_broken(list, answers).map_or(MODEL_MET, |at| MODEL_BROKEN[at]);
        tally.occurred(sort, model);
    }
}

/// A rehearsal's number and, where it ran, what each of its calls was answered.
pub fn rehearsal(number: u32, script: &[u8], answers: &[u8], tally: &mut Tally) {
    tally.occurred(REHEARSED, number);
    if number == 0 {
        for (call, answer) in calls_answered(script, answers) {
            let sort = sort_of_call(call[0], answer);
            tally.occurred(sort, answer[0] as u32);
        }
    }
}

fn sort_of_call(kind: u8, answer: &[u8]) -> &'static str {
    match (kind, answer[0], answer[1]) {
        (1, ..) => PUT,
        (2, 0, 1) => GET_FOUND,
        (2, 0, _) => GET_NONE,
        (2, ..) => GET_REFUSED,
        (3, ..) => DELIVERY,
        (4, 0, _) if u32_at(answer, 4) > 0 => CLOSE_COPIES,
        (4, 0, _) => CLOSE_NONE,
        (4, ..) => CLOSE_REFUSED,
        _ => NO_KIND,
    }
}

/// The copies of a script that was rehearsed.
pub fn copies(copies: &Copies, tally: &mut Tally) {
    tally.occurred(sort_of_copies(copies), 0);
}

fn sort_of_copies(copies: &Copies) -> &'static str {
    match *copies {
        Copies { puts: 0, gets: 0, .. } => NO_EVENT,
        Copies { puts: 0, .. } => GETS_ALONE,
        Copies { other_sites: 0, .. } => ONE_SITE,
        Copies { outstanding: MOST_COPIES, .. } => MOST_OUTSTANDING,
        Copies { outstanding: 0, by_closes: 0, .. } => NONE_BY_DELIVERIES,
        Copies { outstanding: 0, .. } => NONE_BY_CLOSES,
        Copies { by_deliveries: 0, by_closes: 0, .. } => ALL_OUTSTANDING,
        Copies { by_closes: 0, .. } => AFTER_DELIVERIES,
        Copies { by_deliveries: 0, .. } => AFTER_CLOSES,
        _ => AFTER_BOTH,
    }
}
