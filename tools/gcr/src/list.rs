//! Lists the models and predicates that records are judged by.

use crate::commands::Command;
use crate::help;
use crate::options::Operands;
use gcr::{Model, Predicate};

pub const COMMAND: Command = Command {
    name: "list",
    about: "lists the models and predicates, and what they ask",
    does: DOES,
    operands: Operands::NONE,
    options: &[],
    alternatives: &[],
    notes: "",
    example: "gcr list",
    run: |_| help::written(&format!("Models\n{}\nPredicates\n{}", models(), predicates())),
};

const DOES: &str = "
Lists the models, each with its predicates, and the predicates, with what they ask. Where a name is asked for,
the number will do as well, and letters may be large or small.
";

fn models() -> String {
    let predicates = |model: Model| model.predicates().iter().map(|each| each.name()).collect::<Vec<_>>().join(", ");
    let line =
        |&model: &Model| format!("{:3} {model}: {}\n    {}\n", model.number(), predicates(model), model.sentence());
    Model::ALL.iter().map(line).collect()
}

fn predicates() -> String {
    let line = |&each: &Predicate| format!("{:3} {each}\n    {}\n", each.number(), each.sentence());
    Predicate::ALL.iter().map(line).collect()
}
