//! `gcr`: one command over the proved library. Everything that it decides comes from the library's calls; it reads
//! files, asks, and writes what it was told.

mod color;
mod commands;
mod completions;
mod draw;
mod ending;
mod explain;
mod help;
mod judge;
mod list;
mod made;
mod make;
mod manual;
mod named;
mod nearest;
mod openings;
mod options;
mod output;
mod printable;
mod records;
mod rehearse;
mod show;
mod source;
mod table;
mod text;
mod unknown;
mod version;
mod words;

use commands::Command;
use ending::{Ending, Failure};
use std::ffi::OsString;
use std::process::ExitCode;

fn main() -> ExitCode {
    let words: Vec<OsString> = std::env::args_os().skip(1).collect();
    match run(&words) {
        Ok(ending) => ending.into(),
        Err(failure) => failure.told(),
    }
}

fn run(words: &[OsString]) -> Result<Ending, Failure> {
    let Some((first, rest)) = words.split_first() else {
        return Err(Failure::unclear(format!("name a command\n\n{}", help::overview())));
    };
    match first.to_str() {
        Some("--help" | "-h") => help::written(&help::overview()),
        Some("--version" | "-V") => version::told(),
        _ => {
            let command = Command::named(first, &commands::first_words())?;
            let words = words::Words::read(command, rest)?;
            match words.has(words::HELP.name) {
                true => help::written(&help::of(command)),
                false => (command.run)(&words),
            }
        }
    }
}
