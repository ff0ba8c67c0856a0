//! Writes a record as text.

use crate::commands::Command;
use crate::ending::{Ending, Failure};
use crate::made::Made;
use crate::options::{Kind, Operands, Opt};
use crate::output;
use crate::table::{written, Form};
use crate::words::Words;
use gcr::{Record, RECORD_MOST};
use std::ffi::OsStr;

pub const COMMAND: Command = Command {
    name: "show",
    about: "writes a record as text",
    does: DOES,
    operands: Operands::file("[FILE]"),
    options: &[
        Opt::with("-o", "OUT", Kind::Made(Made::Text), "writes to this file"),
        Opt::flag(
            "--csv",
            "writes cells with commas between them, for a spreadsheet; so does an OUT that ends in .csv",
        ),
    ],
    alternatives: &[],
    notes: NOTES,
    example: "gcr show records/stale-read.gcr",
    run,
};

const DOES: &str = "
Writes a record as text, a line for each event. FILE is the record; without it, or where it is -, the record
comes from standard input.
";

const NOTES: &str = "
The text has a header, which ends with the number of events, then the columns: the event's number, site,
kind, object, value, state, start, return, its position in the order of all events, and the events that it
sees, in brackets and in ranges: [0..5 7] is 0 to 5, and 7. gcr make makes the same record of it again.
";

fn run(words: &Words) -> Result<Ending, Failure> {
    let source = words.file()?;
    let to = words.made_of(&source, "-o")?;
    let form = Form::of(words.has("--csv"), to);
    let bytes = source.bytes(RECORD_MOST + 1)?;
    let record = Record::read(&bytes).map_err(|refusal| Failure::of_refusal(&source.name(), refusal))?;
    output::saved(to.unwrap_or(OsStr::new("-")), written(form, &record).as_bytes())?;
    Ok(Ending::Well)
}
