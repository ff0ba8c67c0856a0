//! Draws a record, or a part of it, and where it breaks a predicate.

use crate::commands::Command;
use crate::ending::{Ending, Failure};
use crate::made::Made;
use crate::options::{Kind, Operands, Opt};
use crate::printable::printable;
use crate::source::Source;
use crate::text::number;
use crate::words::Words;
use crate::{named, output};
use diagram::{Asked, Part, Undrawn};
use gcr::{Model, RECORD_MOST};
use std::ffi::{OsStr, OsString};

pub const COMMAND: Command = Command {
    name: "draw",
    about: "draws a record, or a part of it, as a picture in SVG",
    does: DOES,
    operands: Operands::file("[FILE]"),
    options: &[
        Opt::with("--predicate", "P", Kind::Predicate, "shows the break of this predicate, by name or number"),
        Opt::with("--model", "M", Kind::Model, MODEL),
        Opt::flag("--plain", "judges nothing, and shows what the record says alone"),
        Opt::with("--around", "A B", Kind::Number, AROUND),
        Opt::with("--site", "S", Kind::Number, "draws events of this site").repeated(),
        Opt::with("--object", "O", Kind::Number, "draws events on this object").repeated(),
        Opt::with("-o", "PICTURE.svg", Kind::Made(Made::Picture), "writes to this file; else to standard output"),
        Opt::flag("--quiet", "does not say what was drawn").or("-q"),
    ],
    alternatives: &[&["--predicate", "--model", "--plain"]],
    notes: NOTES,
    example: "gcr draw --predicate 5 --around 23 150 -o busy-day.svg records/busy-day.gcr",
    run,
};

const MODEL: &str = "shows that of this model's first broken predicate; where nothing is asked it is Causal";

const AROUND: &str = "draws events A and B, and with each the eight that start before it and the eight after it";

const DOES: &str = "
Draws what each event of a record sees, in SVG, and the break of a predicate or model, if there is one. What
was drawn is said in a line, on standard error where the picture goes to standard output.
";

const NOTES: &str = "
Of several kinds events are drawn that all of them allow; A, B and the events of a break are always drawn.
FILE is a record; without it, or where it is -, the record comes from standard input.
Exit status: 0 drawn, whatever is broken; 2 the record was refused; 3 FILE could not be read or the picture
not be written; 4 the words were not understood, the record has no such event or site, or nothing to draw, or
the file that would be replaced is no picture.
";

fn run(words: &Words) -> Result<Ending, Failure> {
    let (asked, part) = (asked(words)?, part(words)?);
    let source = words.file()?;
    let to = words.made_of(&source, "-o")?.unwrap_or(OsStr::new("-"));
    let bytes = source.bytes(RECORD_MOST + 1)?;
    let picture = diagram::draw(&source.short_name(), &bytes, asked, &part).map_err(|why| undrawn(&source, why))?;
    output::saved(to, picture.svg.as_bytes())?;
    match words.has("--quiet") {
        true => Ok(Ending::Well),
        false => say(&source, to, &picture.told),
    }
}

/// Beside the picture and not in it: by the file's name, or the record's where the picture has none.
fn say(source: &Source, to: &OsStr, told: &str) -> Result<Ending, Failure> {
    match output::is_standard(to) {
        true => output::remarked(&format!("{}: {told}", source.name())),
        false => output::written(format!("{}: {told}\n", printable(&to.to_string_lossy())).as_bytes())?,
    }
    Ok(Ending::Well)
}

fn undrawn(source: &Source, why: Undrawn) -> Failure {
    match why {
        Undrawn::Refused(refusal) => Failure::of_refusal(&source.name(), refusal),
        _ => Failure::unclear(format!("{}: {why}", source.name())),
    }
}

fn asked(words: &Words) -> Result<Asked, Failure> {
    Ok(match (named::predicates(words)?.as_slice(), named::models(words)?.as_slice()) {
        _ if words.has("--plain") => Asked::Nothing,
        (&[predicate, ..], _) => Asked::Predicate(predicate),
        (_, &[model, ..]) => Asked::Model(model),
        _ => Asked::Model(Model::Causal),
    })
}

fn part(words: &Words) -> Result<Part, Failure> {
    let around = match numbers(words, "--around")?.as_slice() {
        &[a, b] => Some((a, b)),
        _ => None,
    };
    Ok(Part { around, sites: numbers(words, "--site")?, objects: numbers(words, "--object")? })
}

/// All that were given with an option.
fn numbers(words: &Words, option: &str) -> Result<Vec<usize>, Failure> {
    let number = |word: &OsString| {
        let text = printable(&word.to_string_lossy());
        let read = number(&text).and_then(|number| number.try_into().ok());
        read.ok_or_else(|| words.unclear(&format!("{option} takes numbers, and {text} is none")))
    };
    words.all(option).into_iter().flatten().map(number).collect()
}
