//! Judges records: a line, an object or rows for each, in the order in which they were named.

mod asked;
mod csv;
mod form;
mod found;
mod json;
mod judging;
mod lines;
mod verdicts;

pub use asked::Question;
pub use form::Form;
pub use judging::Judging;
pub use verdicts::Breaks;

use crate::color;
use crate::commands::Command;
use crate::ending::{Ending, Failure};
use crate::options::{Kind, Operands, Opt};
use crate::records;
use crate::words::Words;

pub const COMMAND: Command = Command {
    name: "judge",
    about: "judges records, files or a folder's, against models or predicates",
    does: DOES,
    operands: Operands::files("[FILE | FOLDER | -]..."),
    options: &[
        Opt::with("--model", "M", Kind::Model, "a model by name or number; without any it is Causal, the house's rule")
            .repeated(),
        Opt::with("--predicate", "P", Kind::Predicate, "a predicate by name or number").repeated(),
        Opt::flag("--all", "all thirteen predicates"),
        Opt::flag("--json", "an object for each record, a line each, with the events of its breaks"),
        Opt::flag("--csv", "rows for each record"),
        Opt::flag("--quiet", "nothing of records that are met").or("-q"),
        color::OPTION,
        records::RECURSIVE,
        records::EXPECT,
        records::STRICT,
    ],
    alternatives: &[&["--json", "--csv"]],
    notes: NOTES,
    example: EXAMPLE,
    run,
};

const DOES: &str = "
Judges each record and writes a line for it: met, or what is broken and at which events, or why it was
refused. A folder stands for its files that end in .gcr; - or no file is standard input.
";

const NOTES: &str = "
Exit status: 0 all met, 1 something broken, 2 something refused, 3 something not read; the highest counts.
";

const EXAMPLE: &str = "
gcr judge records/clocks.gcr records/stale-read.gcr
records/clocks.gcr: met
records/stale-read.gcr: broken: Causal by CausalVisibility at events 0 and 2
2 records against Causal: 1 met, 1 broken, 0 refused, 0 not read
";

fn run(words: &Words) -> Result<Ending, Failure> {
    let questions = asked::questions(words)?;
    let is_quiet = words.has("--quiet");
    records::told(words, &Judging { questions, breaks: Breaks::First, form: Form::asked(words), is_quiet })
}
