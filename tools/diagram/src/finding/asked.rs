//! What is asked of a record.

use super::{Break, Broken, Finding, Verdicts};
use gcr::{Model, Predicate, Refusal};

/// What a picture is to show beside what the record says.
#[derive(Clone, Copy, Debug, PartialEq, Eq)]
pub enum Asked {
    /// Nothing is judged.
    Nothing,
    /// Whether this is broken, and how.
    Predicate(Predicate),
    /// The same; of a model by the first of its predicates that is broken.
    Model(Model),
}

/// Which breaks are to be told.
#[derive(Clone, Debug, PartialEq, Eq)]
pub enum Breaks {
    /// Those of these predicates. One that is met is told to be.
    Of(Vec<Predicate>),
    /// That of each predicate of a model that is broken, in the model's order.
    OfModel(Model),
    /// That of each predicate that is broken.
    All,
}

impl Asked {
    pub(crate) fn judge(self, record: &[u8]) -> Result<Option<Finding>, Refusal> {
        let told = |found: Option<Break>| found.map(|found| Broken::of(found, record)).transpose();
        Ok(match self {
            Asked::Nothing => None,
            Asked::Predicate(asked) => Some(Finding::of_predicate(asked, told(Break::of(asked, record)?)?)),
            Asked::Model(asked) => {
                let first = Verdicts::of(record).of_model(asked)?.into_iter().next();
                Some(Finding::of_model(asked, told(first)?))
            }
        })
    }
}

impl Breaks {
    /// What there is to tell: of all predicates nothing where all are met.
    pub(crate) fn judge(&self, record: &[u8]) -> Result<Vec<Finding>, Refusal> {
        match self {
            Breaks::Of(asked) => of_predicates(asked, record),
            Breaks::OfModel(asked) => of_model(*asked, record),
            Breaks::All => {
                let mut all = of_predicates(Predicate::ALL, record)?;
                all.retain(|finding| finding.broken.is_some());
                Ok(all)
            }
        }
    }
}

fn of_predicates(asked: &[Predicate], record: &[u8]) -> Result<Vec<Finding>, Refusal> {
    let mut verdicts = Verdicts::of(record);
    let finding = |&asked| {
        let broken = verdicts.of_predicate(asked)?.map(|found| Broken::of(found, record)).transpose()?;
        Ok(Finding::of_predicate(asked, broken))
    };
    asked.iter().map(finding).collect()
}

fn of_model(asked: Model, record: &[u8]) -> Result<Vec<Finding>, Refusal> {
    let breaks = Verdicts::of(record).of_model(asked)?;
    let met = breaks.is_empty().then(|| Ok(Finding::of_model(asked, None)));
    let finding = |found: Break| Ok(Finding::of_model(asked, Some(Broken::of(found, record)?)));
    breaks.into_iter().map(finding).chain(met).collect()
}
