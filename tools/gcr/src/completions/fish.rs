//! For fish.

use super::quoted;
use crate::commands::{Command, ALL};
use crate::help::INSTEAD;
use crate::options::{Kind, Opt};

pub fn script() -> String {
    include_str!("script.fish")
        .replace("@COMMANDS@", &commands().join("\n"))
        .replace("@OPTIONS@", &ALL.iter().flat_map(of_command).collect::<Vec<_>>().join("\n"))
}

fn commands() -> Vec<String> {
    let line = |words: &str, about: &str| format!("complete -c gcr -n __gcr_has_no_command {words} -d {}", fish(about));
    let commands = ALL.iter().map(|command| line(&format!("-a {}", command.name), command.about));
    commands.chain(INSTEAD.iter().map(|option| line(&names(option), option.help))).collect()
}

fn of_command(command: &'static Command) -> Vec<String> {
    let line = |words: String| format!("complete -c gcr -n '__gcr_is {}' {words}", command.name);
    let option = |option: &'static Opt| format!("{}{} -d {}", names(option), value(option), fish(&option.sentence()));
    let operands = of_kind(command.operands.kind);
    command.options().map(option).chain(operands).map(line).collect()
}

/// `-s q -l quiet`.
fn names(option: &Opt) -> String {
    let name = |name: &str| match name.strip_prefix("--") {
        Some(long) => format!("-l {long}"),
        None => format!("-s {}", name.trim_start_matches('-')),
    };
    option.names().map(name).collect::<Vec<_>>().join(" ")
}

/// That a word comes after it, and what it may be.
fn value(option: &Opt) -> String {
    match (option.values.is_empty(), of_kind(option.kind)) {
        (true, _) => String::new(),
        (_, Some(words)) => format!(" -r {words}"),
        _ => " -x".to_string(),
    }
}

fn of_kind(kind: Kind) -> Option<String> {
    match kind {
        Kind::File | Kind::Made(_) => Some("-F".to_string()),
        Kind::Nothing | Kind::Number => None,
        Kind::Model | Kind::Predicate | Kind::Command | Kind::OneOf(_) => {
            Some(format!("-f -a {}", fish(&kind.words().join(" "))))
        }
    }
}

fn fish(text: &str) -> String {
    quoted(text, "\\'")
}
