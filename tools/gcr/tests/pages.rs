//! What the pages show of the command is what it writes. In a block ```console each line after `$ ` is a command, and
//! the lines below it are all that it writes, errors too.

mod support;

use std::fs;
use std::path::Path;
use support::folder::Folder;
use support::{root, shell_in};

/// A command and what the page says that it writes.
#[derive(Debug, PartialEq, Eq)]
struct Shown {
    command: String,
    output: String,
}

fn shown(page: &str) -> Vec<Shown> {
    let mut all: Vec<Shown> = Vec::new();
    let mut is_inside = false;
    for line in page.lines() {
        match (is_inside, line.strip_prefix("$ ")) {
            (false, _) => is_inside = line == "```console",
            (true, _) if line == "```" => is_inside = false,
            (true, Some(command)) => all.push(Shown { command: command.to_string(), output: String::new() }),
            (true, None) => {
                let last = all.last_mut().expect("a command comes first");
                last.output.push_str(line);
                last.output.push('\n');
            }
        }
    }
    all
}

/// The commands of a page, one after another in one shell, in a folder that has the shipped records.
fn run(commands: &[Shown], folder: &Path) -> Vec<String> {
    let mark = "@@ the next command @@";
    let mut script = String::from("last() { return $1; }\n");
    for shown in commands {
        script.push_str(&format!("s=$?; echo '{mark}'; last $s\n{}\n", shown.command));
    }
    let ran = shell_in(folder, &format!("exec 2>&1\n{script}"));
    let outputs: Vec<String> = ran.text().split(&format!("{mark}\n")).skip(1).map(str::to_string).collect();
    assert_eq!(outputs.len(), commands.len(), "{}", ran.text());
    outputs
}

fn holds(page: &str) {
    let text = fs::read_to_string(root().join(page)).unwrap();
    let commands = shown(&text);
    assert!(!commands.is_empty(), "{page} shows no command");
    let folder = Folder::with(&["records", "README.md"]);
    for (shown, output) in commands.iter().zip(run(&commands, folder.path())) {
        assert_eq!(output, shown.output, "{page}: {}", shown.command);
    }
}

#[test]
fn the_first_page() {
    holds("README.md");
}

#[test]
fn the_page_of_the_command() {
    holds("docs/COMMAND.md");
}

#[test]
fn the_analysts_page() {
    holds("docs/ANALYST.md");
}

#[test]
fn the_operators_page() {
    holds("docs/OPERATOR.md");
}

#[test]
fn commands_and_their_lines_come_apart() {
    let page = "text\n```console\n$ a b\nc\nd\n$ e\n```\n$ no\n```console\n$ f\ng\n```\n";
    let of = |command: &str, output: &str| Shown { command: command.to_string(), output: output.to_string() };
    assert_eq!(shown(page), [of("a b", "c\nd\n"), of("e", ""), of("f", "g\n")]);
}
