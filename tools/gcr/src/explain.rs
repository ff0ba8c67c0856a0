//! Tells in words how records came to break a predicate.

use crate::commands::Command;
use crate::ending::{Ending, Failure};
use crate::judge::{self, Form, Judging, Question};
use crate::options::{Kind, Operands, Opt};
use crate::records::{self, Layout, Teller, Told};
use crate::words::Words;
use crate::{named, source};
use diagram::Breaks;
use gcr::{Model, Predicate};

pub const COMMAND: Command = Command {
    name: "explain",
    about: "tells in words how a record came to break a predicate",
    does: DOES,
    operands: Operands::files("[FILE | FOLDER | -]..."),
    options: &[
        Opt::with("--predicate", "P", Kind::Predicate, "this predicate, by name or number").repeated(),
        Opt::with("--model", "M", Kind::Model, MODEL),
        Opt::flag("--all", "each of the thirteen predicates that is broken"),
        Opt::flag("--json", "an object for each record, a line each, as gcr judge writes it"),
        records::RECURSIVE,
    ],
    alternatives: &[&["--predicate", "--model", "--all"]],
    notes: NOTES,
    example: "gcr explain --predicate MonotonicReads records/stale-read.gcr",
    run,
};

const MODEL: &str = "each predicate of this model that is broken; without an option the model is Causal";

const DOES: &str = "
Tells how a record came to break a predicate: the verdict, why that is a break, and each event on the way,
with its site, object, value and time, how the way comes to it, and at the end what is missing or wrong.
";

const NOTES: &str = "
A folder stands for its files that end in .gcr; - or no file is standard input.
Exit status: 0 nothing is broken, 1 a break is told, 2 a record was refused, 3 something could not be read;
the highest counts.
";

fn run(words: &Words) -> Result<Ending, Failure> {
    let breaks = breaks(words)?;
    let questions = questions(&breaks);
    let judging = Judging { questions, breaks: judge::Breaks::Each, form: Form::Json, is_quiet: false };
    match words.has("--json") {
        true => records::told(words, &judging),
        false => records::told(words, &Explaining { breaks, by: judging.by() }),
    }
}

fn breaks(words: &Words) -> Result<Breaks, Failure> {
    if words.has("--all") {
        return Ok(Breaks::All);
    }
    Ok(match (named::predicates(words)?, named::models(words)?.as_slice()) {
        (_, &[model, ..]) => Breaks::OfModel(model),
        (predicates, _) if !predicates.is_empty() => Breaks::Of(predicates),
        _ => Breaks::OfModel(Model::Causal),
    })
}

fn questions(breaks: &Breaks) -> Vec<Question> {
    let of = |predicates: &[Predicate]| predicates.iter().copied().map(Question::Predicate).collect();
    match breaks {
        Breaks::OfModel(model) => vec![Question::Model(*model)],
        Breaks::Of(predicates) => of(predicates),
        Breaks::All => of(Predicate::ALL),
    }
}

/// In words.
struct Explaining {
    breaks: Breaks,
    by: String,
}

impl Teller for Explaining {
    fn read(&self, name: &str, bytes: &[u8]) -> Result<Told, Failure> {
        let refused = |refusal| Failure::of_refusal(name, refusal);
        let told = diagram::explain(name, bytes, &self.breaks).map_err(refused)?;
        Ok(Told { ending: if told.is_broken { Ending::Broken } else { Ending::Well }, text: told.text })
    }

    fn unread(&self, name: &str, why: &str) -> Result<Told, Failure> {
        Err(source::unread(name, why))
    }

    fn by(&self) -> String {
        self.by.clone()
    }

    fn layout(&self) -> Layout {
        Layout::Paragraphs
    }
}
