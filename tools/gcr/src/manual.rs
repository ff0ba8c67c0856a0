//! The manual page, made of the table of commands, in roff.

use crate::commands::{Command, ALL};
use crate::ending::Ending;
use crate::help;
use crate::options::{Operands, Opt};
use crate::version::VERSION;

pub const COMMAND: Command = Command {
    name: "manual",
    about: "writes its manual page",
    does: "Writes the manual page of gcr, in roff: what --help tells of all commands, on one page.",
    operands: Operands::NONE,
    options: &[],
    alternatives: &[],
    notes: "It belongs in a folder of manual pages, as ~/.local/share/man/man1/gcr.1.",
    example: "gcr manual > gcr.1",
    run: |_| help::written(&page()),
};

fn page() -> String {
    let heading = format!(".TH GCR 1 \"\" \"gcr {VERSION}\" \"User Commands\"\n");
    let name = format!(".SH NAME\ngcr \\- {}\n", escaped(help::ABOUT));
    let commands: String = ALL.iter().map(of_command).collect();
    format!("{heading}{name}{}.SH COMMANDS\n{commands}{}", synopsis(), statuses())
}

fn synopsis() -> String {
    let line = |words: &str, rest: &str| format!("\\fBgcr\\fR {words}{rest}\n");
    let options = help::INSTEAD.iter().map(|option| line(&bold(&option.names().collect::<Vec<_>>()), ""));
    let lines: Vec<String> = [line("\\fICOMMAND\\fR", " ...")].into_iter().chain(options).collect();
    format!(".SH SYNOPSIS\n{}", lines.join(".br\n"))
}

fn of_command(command: &Command) -> String {
    let usage: String = command.usage().iter().map(|piece| format!(" {}", escaped(piece))).collect();
    let options: String = command.options().map(of_option).collect();
    format!(
        ".SS {0}\n\\fBgcr {0}\\fR{usage}\n.PP\n{1}{options}{2}.PP\nExample:\n{3}",
        command.name,
        prose(command.does),
        after_options(command.notes),
        example(command.example)
    )
}

/// Below what it is called stands what it does.
fn of_option(option: &Opt) -> String {
    let values: String = option.places().map(|place| format!(" \\fI{}\\fR", escaped(place))).collect();
    let names: Vec<&str> = option.names().collect();
    format!(".TP\n{}{values}\n{}", bold(&names), prose(&option.sentence()))
}

fn bold(names: &[&str]) -> String {
    names.iter().map(|name| format!("\\fB{}\\fR", escaped(name))).collect::<Vec<_>>().join(", ")
}

fn after_options(notes: &str) -> String {
    match notes.trim() {
        "" => String::new(),
        notes => format!(".PP\n{}", prose(notes)),
    }
}

/// All of the command, and not of one.
fn statuses() -> String {
    let one = |ending: &Ending| format!(".TP\n{}\n{}", *ending as u8, prose(ending.meaning()));
    let all: String = Ending::ALL.iter().map(one).collect();
    format!(".SH EXIT STATUS\nThe highest that applies:\n{all}")
}

/// Sentences are filled; lines that begin with spaces stand as they are.
fn prose(text: &str) -> String {
    let mut written = String::new();
    let mut is_fixed = false;
    for line in text.trim().lines() {
        if line.starts_with(' ') != is_fixed {
            is_fixed = !is_fixed;
            written.push_str(if is_fixed { ".PP\n.EX\n" } else { ".EE\n.PP\n" });
        }
        written.push_str(&format!("{}\n", escaped(line)));
    }
    format!("{written}{}", if is_fixed { ".EE\n" } else { "" })
}

fn example(text: &str) -> String {
    let lines: String = text.trim().lines().map(|line| format!("  {}\n", escaped(line))).collect();
    format!(".PP\n.EX\n{lines}.EE\n")
}

/// Signs that mean something in roff.
fn escaped(text: &str) -> String {
    let text = text.replace('\\', "\\e").replace('-', "\\-").replace('\'', "\\(aq");
    format!("{}{text}", if text.starts_with('.') { "\\&" } else { "" })
}
