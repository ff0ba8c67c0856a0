//! The verdicts on a record, from the proved library.

use super::asked::Question;
use diagram::{Break, Broken, Verdicts};
use gcr::{Event, Record, Refusal};

pub struct Verdict {
    pub question: Question,
    /// None where it is met.
    pub broken: Option<Break>,
    /// Of a break, where they are asked for: its events in the order in which they are told, from a to b.
    pub way: Vec<(u16, Event)>,
}

/// By how many of its broken predicates a model is told.
#[derive(Clone, Copy, Debug, PartialEq, Eq)]
pub enum Breaks {
    First,
    Each,
}

/// In the order of the questions.
pub fn verdicts(record: &[u8], questions: &[Question], told: Breaks) -> Result<Vec<Verdict>, Refusal> {
    let mut verdicts = Vec::new();
    for (question, mut breaks) in breaks(record, questions)? {
        if told == Breaks::First {
            breaks.truncate(1);
        }
        let verdict = |broken: Option<Break>| Verdict { question, broken, way: Vec::new() };
        match breaks.is_empty() {
            true => verdicts.push(verdict(None)),
            false => verdicts.extend(breaks.into_iter().map(Some).map(verdict)),
        }
    }
    Ok(verdicts)
}

/// Those of each question: none where it is met.
fn breaks(record: &[u8], questions: &[Question]) -> Result<Vec<(Question, Vec<Break>)>, Refusal> {
    if let &[alone @ Question::Predicate(predicate)] = questions {
        return Ok(vec![(alone, Break::of(predicate, record)?.into_iter().collect())]);
    }
    let mut verdicts = Verdicts::of(record);
    let breaks = |&question: &Question| {
        let breaks = match question {
            Question::Model(model) => verdicts.of_model(model)?,
            Question::Predicate(predicate) => verdicts.of_predicate(predicate)?.into_iter().collect(),
        };
        Ok((question, breaks))
    };
    questions.iter().map(breaks).collect()
}

/// The same with the events of what is broken.
pub fn with_events(record: &[u8], mut verdicts: Vec<Verdict>) -> Result<Vec<Verdict>, Refusal> {
    if verdicts.iter().all(|verdict| verdict.broken.is_none()) {
        return Ok(verdicts);
    }
    let said = Record::read(record)?;
    let event = |number: usize| said.event(number as u16).map(|event| (number as u16, *event));
    for verdict in &mut verdicts {
        if let Some(found) = verdict.broken {
            verdict.way = Broken::of(found, record)?.way.into_iter().filter_map(event).collect();
        }
    }
    Ok(verdicts)
}
