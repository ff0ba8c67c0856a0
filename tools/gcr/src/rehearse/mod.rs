//! Runs a script of calls over the store's sites, by the proved rehearsal, and tells what each call was answered.

mod bytes;
mod calls;
mod files;
mod reading;
mod rehearsal;
mod script;
#[cfg(test)]
mod tests;
mod writing;

use crate::commands::Command;
use crate::ending::{Ending, Failure};
use crate::made::Made;
use crate::options::{Kind, Operands, Opt};
use crate::output;
use crate::source::Source;
use crate::text;
use crate::words::Words;
use files::Files;
use rehearsal::Rehearsal;
use script::Script;

pub const COMMAND: Command = Command {
    name: "rehearse",
    about: "runs a script of calls over the store's sites",
    does: DOES,
    operands: Operands::file("[SCRIPT]"),
    options: &[
        Opt::with(
            files::RECORD,
            "RECORD",
            Kind::Made(Made::Record),
            "the record that the rehearsal leaves goes to this file",
        ),
        Opt::flag(BYTES, "the script is in the paper's form: a byte of sites, 132 bytes of openings, 8 bytes a call"),
        Opt::with(files::BYTES_TO, "FILE", Kind::Made(Made::Script), "the script goes to this file in that form"),
    ],
    alternatives: &[],
    notes: NOTES,
    example: "printf 'sites 2\\nput 0 5 100\\nclose\\nget 1 5\\n' | gcr rehearse -o day.gcr",
    run,
};

const BYTES: &str = "--bytes";

const DOES: &str = "
Runs a script of calls over the store's sites, and writes it with the answer of each call beside it, which is
again a script. Without a file, or of -, it reads standard input. A line of a script is one of
  sites N                  first: how many, 1 to 8
  open OBJECT VALUE        what an object, 0 to 31, starts with; before the first call
  put SITE OBJECT VALUE    an event, as is a get; events have numbers from 0
  get SITE OBJECT
  deliver EVENT SITE       a put's event, to a site
  close                    delivers to each site every put that it lacks
  call B0 B1 ... B7        any call, as its bytes in hexadecimal
Sites have numbers from 0; # begins a remark.
";

const NOTES: &str = "
The record is of edition GCR3, and has at most 384 events: puts and gets beyond them are refused.
Where RECORD or FILE is -, its bytes go to standard output, in place of the lines.
Exit status: 0 every call was done; 2 a call, or all of the script, was refused.
";

fn run(words: &Words) -> Result<Ending, Failure> {
    let source = words.file()?;
    let files = Files::named(words, &source)?;
    let script = match words.has(BYTES) {
        true => bytes::read(&source.bytes(bytes::MOST + 1)?),
        false => of_text(&source)?,
    };
    let refused = |refusal| Failure::of_refusal(&source.name(), writing::refused(refusal));
    let rehearsal = Rehearsal::of(&script).map_err(refused)?;
    files.save(&script, &rehearsal)?;
    match files.is_standard_output_taken() {
        true => ended(&source, &rehearsal),
        false => {
            let record = files.record_name();
            output::written(writing::written(&script, &rehearsal, record.as_deref()).as_bytes())?;
            Ok(if rehearsal.refused() == 0 { Ending::Well } else { Ending::Refused })
        }
    }
}

fn of_text(source: &Source) -> Result<Script, Failure> {
    let text = text::read(source, &format!(" ({BYTES} reads the paper's form)"))?;
    let script = reading::read(&text).map_err(|bad| Failure::of_refusal(&source.name(), bad))?;
    reading::doubt(&text).iter().for_each(|doubt| output::remarked(&format!("{}: {doubt}", source.name())));
    Ok(script)
}

/// Where no line tells of refused calls, a message does.
fn ended(source: &Source, rehearsal: &Rehearsal) -> Result<Ending, Failure> {
    let (refused, calls) = (rehearsal.refused(), rehearsal.answers.len());
    match refused {
        0 => Ok(Ending::Well),
        _ => Err(Failure::of_refusal(&source.name(), format!("{refused} of {calls} calls refused"))),
    }
}
