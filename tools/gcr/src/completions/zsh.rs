//! For zsh.

use super::quoted;
use crate::commands::{Command, ALL};
use crate::help::INSTEAD;
use crate::options::{Kind, Opt};

pub fn script() -> String {
    include_str!("script.zsh").replace("@COMMANDS@", &commands()).replace("@ARGUMENTS@", &arguments())
}

fn commands() -> String {
    let others = INSTEAD.iter().map(|option| (option.name, option.help));
    let all = ALL.iter().map(|command| (command.name, command.about)).chain(others);
    let line = |(name, about): (&str, &str)| format!("        {}", shell(&format!("{name}:{about}")));
    all.map(line).collect::<Vec<_>>().join("\n")
}

fn arguments() -> String {
    let case = |command: &'static Command| {
        let operands = operands(command);
        let specs = command.options().flat_map(|option| specs(command, option)).chain(operands);
        let lines: String = specs.map(|spec| format!(" \\\n                {}", shell(&spec))).collect();
        format!("        {})\n            _arguments -S{lines}\n            ;;", command.name)
    };
    ALL.iter().map(case).collect::<Vec<_>>().join("\n")
}

/// One for each of its names: `(--csv)--json[text]`, `*--site=[text]:S: `.
fn specs(command: &Command, option: &'static Opt) -> Vec<String> {
    let excluded = match option.is_repeated {
        true => "*".to_string(),
        false => format!("({})", excluded(command, option).join(" ")),
    };
    let values: String = option.places().map(|place| format!(":{place}:{}", action(option.kind))).collect();
    let joined = |name: &str| if name.starts_with("--") && option.places().count() == 1 { "=" } else { "" };
    let spec = |name: &str| format!("{excluded}{name}{}[{}]{values}", joined(name), escaped(&option.sentence()));
    option.names().map(spec).collect()
}

/// The names that do not go with it, its own too.
fn excluded(command: &Command, option: &'static Opt) -> Vec<&'static str> {
    let others = command.alternatives.iter().filter(|names| names.contains(&option.name));
    let mut all: Vec<&str> = others.flat_map(|names| names.iter().copied()).chain(option.names()).collect();
    all.sort();
    all.dedup();
    all
}

fn operands(command: &Command) -> Option<String> {
    let operands = &command.operands;
    let many = if operands.most > 1 { "*" } else { "" };
    (operands.most > 0).then(|| format!("{many}:{}:{}", operands.what, action(operands.kind)))
}

fn action(kind: Kind) -> String {
    match kind {
        Kind::File | Kind::Made(_) => "_files".to_string(),
        Kind::Nothing | Kind::Number => " ".to_string(),
        Kind::Model | Kind::Predicate | Kind::Command | Kind::OneOf(_) => {
            format!("_gcr_names {}", kind.words().join(" "))
        }
    }
}

/// Signs that mean something within a spec.
fn escaped(text: &str) -> String {
    text.chars()
        .flat_map(|letter| ['\\', letter].into_iter().skip(usize::from(!matches!(letter, '[' | ']' | ':' | '\\'))))
        .collect()
}

fn shell(text: &str) -> String {
    quoted(text, "'\\''")
}
