//! The verdicts on a record, each from one call of the library.

use gcr::{judge_all, judge_model, judge_predicate, Model, Predicate, Refusal, Verdict};

/// A broken predicate, and the pair that breaks it first.
#[derive(Clone, Copy, Debug, PartialEq, Eq)]
pub struct Break {
    pub by: Predicate,
    pub a: u16,
    pub b: u16,
}

impl Break {
    /// By the predicate's own call, which takes less than that of all where nothing else is asked. None where it is met.
    ///
    /// # Errors
    ///
    /// By 3 to 10, where the record does not pass its questions.
    pub fn of(by: Predicate, record: &[u8]) -> Result<Option<Break>, Refusal> {
        judge_predicate(by, record).map(|verdict| Break::told(by, verdict))
    }

    fn told(by: Predicate, verdict: Verdict) -> Option<Break> {
        match verdict {
            Verdict::Met => None,
            Verdict::Broken { a, b } => Some(Break { by, a, b }),
        }
    }
}

/// Those of the predicates all come from one call, which is made where the first of them is asked for.
pub struct Verdicts<'a> {
    record: &'a [u8],
    all: Option<[Verdict; 13]>,
}

impl<'a> Verdicts<'a> {
    pub fn of(record: &'a [u8]) -> Verdicts<'a> {
        Verdicts { record, all: None }
    }

    /// None where the predicate is met.
    ///
    /// # Errors
    ///
    /// By 3 to 10, where the record does not pass its questions.
    pub fn of_predicate(&mut self, by: Predicate) -> Result<Option<Break>, Refusal> {
        let all = match &self.all {
            Some(all) => all,
            None => self.all.insert(judge_all(self.record)?),
        };
        Ok(Break::told(by, all[by.number() as usize - 1]))
    }

    /// The breaks of a model's predicates, in its order; none where the model is met, of which its own call decides.
    ///
    /// # Errors
    ///
    /// By 3 to 10, where the record does not pass its questions.
    ///
    /// # Panics
    ///
    /// Where the model is broken otherwise than by the first of these: the table of its predicates would not be the
    /// library's.
    pub fn of_model(&mut self, model: Model) -> Result<Vec<Break>, Refusal> {
        let Verdict::Broken { a, b } = judge_model(model, self.record)? else { return Ok(Vec::new()) };
        let mut breaks = Vec::new();
        for &by in model.predicates() {
            breaks.extend(self.of_predicate(by)?);
        }
        let first = breaks.first().map(|first| (first.a, first.b));
        assert_eq!(first, Some((a, b)), "{model} is broken otherwise than by the first broken one of its predicates");
        Ok(breaks)
    }
}
