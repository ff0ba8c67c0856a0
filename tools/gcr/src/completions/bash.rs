//! For bash.

use super::quoted;
use crate::commands::{first_words, Command, ALL};
use crate::options::{Kind, Opt};

pub fn script() -> String {
    let places = ALL.iter().flat_map(Command::options).map(|option| option.places().count()).max();
    include_str!("script.bash")
        .replace("@VALUES@", &ALL.iter().flat_map(values).collect::<Vec<_>>().join("\n"))
        .replace("@OPTIONS@", &lines(|command| words(&command.option_names())))
        .replace("@OPERANDS@", &lines(|command| of_kind(command.operands.kind)))
        .replace("@COMMANDS@", &first_words().join(" "))
        .replace("@PLACES@", &places.unwrap_or(0).to_string())
}

/// A case for each command.
fn lines(done: impl Fn(&Command) -> String) -> String {
    let line = |command: &Command| case(command.name, &done(command));
    ALL.iter().map(line).collect::<Vec<_>>().join("\n")
}

/// A case for each word that comes after an option.
fn values(command: &'static Command) -> Vec<String> {
    let cases = |option: &'static Opt| {
        let named = move |place: usize| option.names().map(move |name| format!("'{} {name} {place}'", command.name));
        let done = of_kind(option.kind);
        (1..=option.places().count()).flat_map(named).map(move |pattern| case(&pattern, &done))
    };
    command.options().flat_map(cases).collect()
}

fn case(pattern: &str, done: &str) -> String {
    format!("        {pattern}) {done} ;;")
}

fn of_kind(kind: Kind) -> String {
    match kind {
        Kind::File | Kind::Made(_) => "_gcr_files \"$1\"".to_string(),
        Kind::Nothing | Kind::Number => ":".to_string(),
        Kind::Model | Kind::Predicate | Kind::Command | Kind::OneOf(_) => words(&kind.words()),
    }
}

fn words(words: &[&str]) -> String {
    format!("_gcr_words \"$1\" {}", quoted(&words.join(" "), "'\\''"))
}
