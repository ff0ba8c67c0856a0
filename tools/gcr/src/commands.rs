//! The commands, in the order in which they are told.

use crate::ending::{Ending, Failure};
use crate::options::{Operands, Opt};
use crate::unknown::unknown;
use crate::words::{Words, HELP};
use crate::{completions, draw, explain, help, judge, list, make, manual, rehearse, show, version};
use std::ffi::OsStr;

/// All that there is to tell of a command: its help, its completions and its part of the manual are made of this.
pub struct Command {
    pub name: &'static str,
    /// What it does, in one line.
    pub about: &'static str,
    /// What it does, in sentences. Here and in the notes lines that begin with spaces stand as they are.
    pub does: &'static str,
    pub operands: Operands,
    /// Beside `--help`, which all have.
    pub options: &'static [Opt],
    /// Of each of these lists of options one may be given.
    pub alternatives: &'static [&'static [&'static str]],
    /// What comes after the options.
    pub notes: &'static str,
    /// A command line, and below it what it writes where that is short.
    pub example: &'static str,
    pub run: fn(&Words) -> Result<Ending, Failure>,
}

pub const ALL: &[Command] = &[
    judge::COMMAND,
    show::COMMAND,
    make::COMMAND,
    explain::COMMAND,
    rehearse::COMMAND,
    draw::COMMAND,
    list::COMMAND,
    completions::COMMAND,
    manual::COMMAND,
    version::COMMAND,
    help::COMMAND,
];

/// The words that a command line may begin with.
pub fn first_words() -> Vec<&'static str> {
    ALL.iter().map(|command| command.name).chain(help::INSTEAD.iter().map(|option| option.name)).collect()
}

impl Command {
    /// Where it is none, one of these words would be right.
    pub fn named(word: &OsStr, right: &[&str]) -> Result<&'static Command, Failure> {
        let word = word.to_string_lossy();
        let unknown = || unknown("command", &word, right.iter().copied());
        let unclear = || Failure::unclear(format!("{} (gcr --help tells them all)", unknown()));
        ALL.iter().find(|command| command.name == word).ok_or_else(unclear)
    }

    /// All that it has.
    pub fn options(&self) -> impl Iterator<Item = &'static Opt> {
        self.options.iter().chain([&HELP])
    }

    pub fn option_names(&self) -> Vec<&'static str> {
        self.options().flat_map(Opt::names).collect()
    }

    /// What comes after its name, in pieces that stay whole: `[--json | --csv]`, `[--site S]...`, `[FILE]`.
    pub fn usage(&self) -> Vec<String> {
        let options = self.options.iter().filter_map(|option| self.piece(option));
        options.chain([self.operands.usage.to_string()]).filter(|piece| !piece.is_empty()).collect()
    }

    /// Options of which one may be given stand together, where the first of them does.
    fn piece(&self, option: &Opt) -> Option<String> {
        let Some(names) = self.alternatives.iter().find(|names| names.contains(&option.name)) else {
            return Some(format!("[{}]{}", option.usage(), if option.is_repeated { "..." } else { "" }));
        };
        let together: Vec<&Opt> = self.options.iter().filter(|other| names.contains(&other.name)).collect();
        let usages = || together.iter().map(|option| option.usage()).collect::<Vec<_>>();
        (together[0].name == option.name).then(|| format!("[{}]", usages().join(" | ")))
    }
}
