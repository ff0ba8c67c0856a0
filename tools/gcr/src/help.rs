//! What the command tells of itself.

use crate::commands::{Command, ALL};
use crate::ending::{Ending, Failure};
use crate::options::{Kind, Operands, Opt};
use crate::output;
use crate::words::Words;

pub const COMMAND: Command = Command {
    name: "help",
    about: "tells how a command is used",
    does: "Tells how a command is used, as --help after the command does; without one, which commands there are.",
    operands: Operands::one("[COMMAND]", "command", Kind::Command),
    options: &[],
    alternatives: &[],
    notes: "",
    example: "gcr help judge",
    run,
};

/// What all commands together do.
pub const ABOUT: &str = "judges, shows and rehearses records of a replicated store, by the proved library";

/// The letters of the longest line.
const WIDTH: usize = 110;

/// What may stand in a command's place.
pub const INSTEAD: &[Opt] = &[
    Opt::flag("--help", "tells which commands there are").or("-h"),
    Opt::flag("--version", "tells which version this is").or("-V"),
];

fn run(words: &Words) -> Result<Ending, Failure> {
    match words.files.first() {
        None => written(&overview()),
        Some(word) => written(&of(Command::named(word, &Kind::Command.words())?)),
    }
}

pub fn overview() -> String {
    let width = ALL.iter().map(|command| command.name.len()).max().unwrap_or(0) + 2;
    let line = |command: &Command| format!("  {:width$}{}\n", command.name, command.about);
    let commands: String = ALL.iter().map(line).collect();
    let statuses: Vec<String> =
        Ending::ALL.iter().map(|&ending| format!("{} {}", ending as u8, ending.meaning())).collect();
    let statuses = format!("Exit status: {}. The highest that applies.", statuses.join("; "));
    format!(
        "gcr COMMAND ...: {ABOUT}\n\n{commands}\n\
         gcr COMMAND --help tells how a command is used, gcr --version which this is.\n{}\n",
        wrapped(statuses.split(' '), 0)
    )
}

/// How a command is used, what it does, its options, what else there is to know, and an example.
pub fn of(command: &Command) -> String {
    let parts = [
        usage(command),
        command.does.trim().to_string(),
        options(command),
        command.notes.trim().to_string(),
        example(command),
    ];
    let parts: Vec<String> = parts.into_iter().filter(|part| !part.is_empty()).collect();
    format!("{}\n", parts.join("\n\n"))
}

fn usage(command: &Command) -> String {
    let name = format!("gcr {}", command.name);
    let pieces = command.usage();
    wrapped([name.as_str()].into_iter().chain(pieces.iter().map(String::as_str)), name.len() + 1)
}

/// A line for each, or more where its sentence is long.
fn options(command: &Command) -> String {
    let label = |option: &Opt| format!("  {}", option.names_and_values());
    let width = command.options().map(|option| label(option).len()).max().unwrap_or(0) + 1;
    let line = |option: &'static Opt| {
        let (label, sentence) = (format!("{:width$}", label(option)), option.sentence());
        wrapped([label.as_str()].into_iter().chain(sentence.split(' ')), width + 1)
    };
    command.options().map(line).collect::<Vec<_>>().join("\n")
}

fn example(command: &Command) -> String {
    match command.example.trim() {
        one if !one.contains('\n') => format!("Example: {one}"),
        many => format!("Example:\n{}", many.lines().map(|line| format!("  {line}")).collect::<Vec<_>>().join("\n")),
    }
}

/// Pieces with spaces between them, in lines of which all but the first begin with so many spaces.
fn wrapped<'a>(pieces: impl IntoIterator<Item = &'a str>, indent: usize) -> String {
    let mut lines: Vec<String> = Vec::new();
    for piece in pieces {
        match lines.last_mut() {
            Some(line) if line.chars().count() + 1 + piece.chars().count() <= WIDTH => {
                *line = format!("{line} {piece}")
            }
            Some(_) => lines.push(format!("{:indent$}{piece}", "")),
            None => lines.push(piece.to_string()),
        }
    }
    lines.join("\n")
}

pub fn written(text: &str) -> Result<Ending, Failure> {
    output::written(text.as_bytes()).map(|()| Ending::Well)
}
