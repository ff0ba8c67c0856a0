//! Completions of command lines, made of the table of commands. What differs between shells is how they are told.

mod bash;
mod fish;
mod zsh;

use crate::commands::Command;
use crate::ending::{Ending, Failure};
use crate::help;
use crate::options::{either, Kind, Operands};
use crate::words::Words;

pub const COMMAND: Command = Command {
    name: "completions",
    about: "writes the script by which a shell completes its command lines",
    does: DOES,
    operands: Operands::one("SHELL", "shell", Kind::OneOf(SHELLS)),
    options: &[],
    alternatives: &[],
    notes: NOTES,
    example: "gcr completions bash > gcr.bash",
    run,
};

const SHELLS: &[&str] = &["bash", "zsh", "fish"];

const DOES: &str = "
Writes the script by which SHELL, which is bash, zsh or fish, completes the command lines of gcr: commands,
their options, the names of models and predicates, and files.
";

const NOTES: &str = "
It belongs in the folder where the shell looks for such scripts, as
  ~/.local/share/bash-completion/completions/gcr
  ~/.config/fish/completions/gcr.fish
or for zsh as _gcr in one of the folders of its fpath.
";

fn run(words: &Words) -> Result<Ending, Failure> {
    match words.files.first().and_then(|shell| shell.to_str()) {
        Some("bash") => help::written(&bash::script()),
        Some("zsh") => help::written(&zsh::script()),
        Some("fish") => help::written(&fish::script()),
        _ => Err(words.unclear(&format!("name a shell: {}", either(SHELLS)))),
    }
}

/// A word or a sentence as a shell takes it, within single quotation marks, where such a mark is written so.
fn quoted(text: &str, mark: &str) -> String {
    format!("'{}'", text.replace('\'', mark))
}
