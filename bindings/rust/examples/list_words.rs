//! Writes all words of these bindings, as the host `list_words` in C writes the library's: the version, the predicates,
//! the models with their lists, and the refusals.

use gcr::{Model, Predicate, Refusal};
use std::io::{stdout, Result, Write};

/// More than a refusal's number has room for.
const NUMBERS: u32 = 1024;

fn predicate(predicate: &Predicate) -> String {
    format!("predicate {} {predicate}\n", predicate.number())
}

fn model(model: &Model) -> String {
    let listed: String = model.predicates().iter().map(|each| format!(" {}", each.number())).collect();
    format!("model {} {model}:{listed}\n", model.number())
}

/// None where there is no such refusal.
fn refusal(number: u32) -> Option<String> {
    let sentence = |number| Refusal { number, place: 0 }.sentence();
    (sentence(number) != sentence(0)).then(|| format!("refusal {number}: {}\n", sentence(number)))
}

fn main() -> Result<()> {
    let predicates: String = Predicate::ALL.iter().map(predicate).collect();
    let models: String = Model::ALL.iter().map(model).collect();
    let refusals: String = (0..NUMBERS).filter_map(refusal).collect();
    write!(stdout(), "version {}\n{predicates}{models}{refusals}", env!("CARGO_PKG_VERSION"))
}
