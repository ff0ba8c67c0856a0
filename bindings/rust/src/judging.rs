//! Judging a record against a model, a predicate, or all predicates.

use crate::packing::Judgment;
use crate::{ffi, Model, Predicate, Refusal};
use core::fmt;

/// What the judge finds of a record that passes the questions.
#[derive(Clone, Copy, Debug, PartialEq, Eq, Hash)]
pub enum Verdict {
    /// The record keeps to what was asked.
    Met,
    /// It breaks it, first at this pair of events.
    Broken {
        /// The pair's first event.
        a: u16,
        /// The pair's second event.
        b: u16,
    },
}

/// As the program `verdict` writes it.
impl fmt::Display for Verdict {
    fn fmt(&self, f: &mut fmt::Formatter<'_>) -> fmt::Result {
        match self {
            Verdict::Met => write!(f, "met"),
            Verdict::Broken { a, b } => write!(f, "broken {a} {b}"),
        }
    }
}

/// Judges a model. A break is the pair of the first broken predicate in the model's list.
///
/// Where a model is met, so is every model that it covers, and where it is broken, so is every model that covers it:
/// the 43 pairs are in docs/JUDGED.md, 'Which model covers which'.
///
/// # Errors
///
/// By 3 to 10, where the record does not pass its questions.
///
/// ```
/// use gcr::{judge_model, Model};
///
/// let refusal = judge_model(Model::Causal, &[]).unwrap_err();
/// assert_eq!(refusal.number, 3);
/// ```
pub fn judge_model(model: Model, record: &[u8]) -> Result<Verdict, Refusal> {
    ffi::judge_model(model.number(), record).verdict()
}

/// By which predicate a model is broken: the first in its list that is, at the pair that [`judge_model`] names. None
/// where the model is met.
///
/// # Errors
///
/// By 3 to 10, where the record does not pass its questions.
///
/// # Panics
///
/// Where the library finds the model broken otherwise than by the first broken one of
/// [`predicates`](Model::predicates): that table would not be the library's.
///
/// ```
/// use gcr::{broken_by, Model, Predicate};
///
/// let record = include_bytes!("../../../records/stale-read.gcr");
/// assert_eq!(broken_by(Model::Causal, record)?, Some(Predicate::CausalVisibility));
/// assert_eq!(broken_by(Model::Pram, record)?, None);
/// # Ok::<(), gcr::Refusal>(())
/// ```
pub fn broken_by(model: Model, record: &[u8]) -> Result<Option<Predicate>, Refusal> {
    let found = judge_model(model, record)?;
    for &predicate in model.predicates() {
        let verdict = judge_predicate(predicate, record)?;
        if verdict != Verdict::Met {
            assert_eq!(verdict, found, "{model} is broken otherwise than by {predicate}");
            return Ok(Some(predicate));
        }
    }
    assert_eq!(found, Verdict::Met, "{model} is broken by none of its predicates");
    Ok(None)
}

/// Judges one predicate.
///
/// # Errors
///
/// By 3 to 10, where the record does not pass its questions.
///
/// ```
/// use gcr::{judge_predicate, Predicate};
///
/// let refusal = judge_predicate(Predicate::RVal, &[0; 512]).unwrap_err();
/// assert_eq!((refusal.number, refusal.place), (4, 0));
/// ```
pub fn judge_predicate(predicate: Predicate, record: &[u8]) -> Result<Verdict, Refusal> {
    ffi::judge_predicate(predicate.number(), record).verdict()
}

/// Judges all thirteen predicates, reading the record once. Predicate k's verdict stands at k - 1.
///
/// # Errors
///
/// By 3 to 10, where the record does not pass its questions: it has no verdicts.
///
/// ```
/// use gcr::{judge_all, Predicate, Verdict};
/// # use gcr::{rehearse, script, Call, Openings, RECORD_MOST};
/// # let script = script(&[Call::Put { site: 0, object: 5, value: 1 }, Call::Put { site: 1, object: 5, value: 2 }]);
/// # let mut record = [0; RECORD_MOST];
/// # let length = rehearse(2, &Openings::none(), &script, &mut record, &mut [0; 16])?.length;
/// # let record = &record[..length];
///
/// let verdicts = judge_all(record)?;
/// for (predicate, verdict) in Predicate::ALL.iter().zip(verdicts) {
///     println!("{} {verdict}", predicate.number());
/// }
/// assert_eq!(verdicts[0], Verdict::Met);
/// assert_eq!(verdicts[1], Verdict::Broken { a: 0, b: 1 });
/// # Ok::<(), gcr::Refusal>(())
/// ```
pub fn judge_all(record: &[u8]) -> Result<[Verdict; 13], Refusal> {
    let mut words = [Judgment::UNWRITTEN; 13];
    ffi::judge_all(record, &mut words).passed()?;
    let mut verdicts = [Verdict::Met; 13]; // each is written over, or none is returned
    for (verdict, word) in verdicts.iter_mut().zip(words) {
        *verdict = word.verdict()?;
    }
    Ok(verdicts)
}
