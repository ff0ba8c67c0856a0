//! A script rehearsed, by the proved rehearsal.

use super::script::Script;
use gcr::{answers, rehearse_raw, Answer, Refusal, RECORD_MOST};

pub struct Rehearsal {
    /// As it was left.
    pub record: Vec<u8>,
    /// One for each call.
    pub answers: Vec<Answer>,
    /// The copies that are when the script has ended.
    pub outstanding: u64,
}

impl Rehearsal {
    /// What refuses the script as a whole is asked there alone.
    pub fn of(script: &Script) -> Result<Rehearsal, Refusal> {
        let Script { sites, openings, calls } = script;
        let (mut record, mut buffer) = (vec![0; RECORD_MOST], vec![0; calls.len()]);
        let done = rehearse_raw((*sites).into(), openings, calls, &mut record, &mut buffer)?;
        record.truncate(done.length);
        Ok(Rehearsal { record, answers: answers(calls, &buffer).collect(), outstanding: done.outstanding })
    }

    /// The calls that were refused.
    pub fn refused(&self) -> usize {
        self.answers.iter().filter(|answer| answer.refusal().is_some()).count()
    }

    /// The calls that became one.
    pub fn events(&self) -> usize {
        let is_event = |answer: &&Answer| matches!(answer, Answer::Put { .. } | Answer::Get { .. });
        self.answers.iter().filter(is_event).count()
    }
}
