//! Makes a record of text.

mod encoding;

pub use encoding::{encoded, Encoded};

use crate::commands::Command;
use crate::ending::{Ending, Failure};
use crate::made::Made;
use crate::options::{Kind, Operands, Opt};
use crate::output;
use crate::table::{Form, Others};
use crate::text;
use crate::words::Words;
use std::ffi::OsStr;

pub const COMMAND: Command = Command {
    name: "make",
    about: "makes a record of text",
    does: DOES,
    operands: Operands::file("[FILE]"),
    options: &[
        Opt::with(
            "-o",
            "OUT",
            Kind::Made(Made::Record),
            "writes the record to this file; else it goes to standard output",
        ),
        Opt::flag("--csv", "the text has cells with commas between them; so it is read too where FILE ends in .csv"),
        Opt::flag(Others::OPTION, "passes over columns that a record has not, and says which"),
    ],
    alternatives: &[],
    notes: NOTES,
    example: "gcr show records/stale-read.gcr > day.txt; gcr make day.txt -o day.gcr",
    run,
};

const DOES: &str = "
Makes a record of text as gcr show writes it, if the proved reader passes it. FILE is the text; without it, or
where it is -, the text comes from standard input.
";

const NOTES: &str = "
Before the columns come the number of sites and, where there are such, the difference of clocks, openings and
the number of events, to which the rows are held. Without a row that says another, the edition is GCR2, and
GCR3 where there are more than 256 events. Where the last column is [sees], as gcr show writes it, its
cells are in brackets, so that a cell that was cut is refused too; where it is sees they need none.
The columns event and state may be left out. # begins a remark. What is wrong is told by line and column.
";

fn run(words: &Words) -> Result<Ending, Failure> {
    let source = words.file()?;
    let to = words.made_of(&source, "-o")?.unwrap_or(OsStr::new("-"));
    words.spares_terminal(to)?;
    let form = Form::of(words.has("--csv"), source.path().map(|path| path.as_os_str()));
    let text = text::read(&source, " (gcr show reads a record)")?;
    let others = if words.has(Others::OPTION) { Others::PassedOver } else { Others::Refused };
    let Encoded { record, remarks } =
        encoded(form, others, &text).map_err(|what| Failure::of_refusal(&source.name(), what))?;
    remarks.iter().for_each(|remark| output::remarked(&format!("{}: {remark}", source.name())));
    output::saved(to, &record)?;
    Ok(Ending::Well)
}
