//! The options and other words that a command takes: what is understood, told, completed and printed in the manual is
//! made of these.

use crate::commands;
use crate::made::Made;
use gcr::{Model, Predicate};
use std::ffi::OsStr;

/// An option that a command has.
#[derive(Clone, Copy)]
pub struct Opt {
    /// With its dashes.
    pub name: &'static str,
    /// One letter that stands for it, with its dash.
    pub short: Option<&'static str>,
    /// What stands for the words that come after it: `M`, `A B`, or nothing.
    pub values: &'static str,
    /// What these words are.
    pub kind: Kind,
    /// What it does.
    pub help: &'static str,
    /// Whether it may be given several times.
    pub is_repeated: bool,
}

/// What words are, beside options.
#[derive(Clone, Copy)]
pub enum Kind {
    /// There are none.
    Nothing,
    Model,
    Predicate,
    Command,
    /// One of these.
    OneOf(&'static [&'static str]),
    Number,
    /// That is read.
    File,
    /// To which this is written.
    Made(Made),
}

impl Opt {
    pub const fn flag(name: &'static str, help: &'static str) -> Opt {
        Opt { name, short: None, values: "", kind: Kind::Nothing, help, is_repeated: false }
    }

    pub const fn with(name: &'static str, values: &'static str, kind: Kind, help: &'static str) -> Opt {
        Opt { name, short: None, values, kind, help, is_repeated: false }
    }

    /// The same by one letter.
    pub const fn or(self, short: &'static str) -> Opt {
        Opt { short: Some(short), ..self }
    }

    /// The same, as often as one likes.
    pub const fn repeated(self) -> Opt {
        Opt { is_repeated: true, ..self }
    }

    pub fn is(&self, word: &str) -> bool {
        self.names().any(|name| name == word)
    }

    /// The short one first.
    pub fn names(&self) -> impl Iterator<Item = &'static str> {
        self.short.into_iter().chain([self.name])
    }

    /// What stands for each word that comes after it.
    pub fn places(&self) -> impl Iterator<Item = &'static str> {
        self.values.split_whitespace()
    }

    /// `--around A B`.
    pub fn usage(&self) -> String {
        [self.name, self.values].join(" ").trim_end().to_string()
    }

    /// `-q, --quiet`.
    pub fn names_and_values(&self) -> String {
        let short = self.short.map_or(String::new(), |short| format!("{short}, "));
        format!("{short}{}", self.usage())
    }

    /// What it does, with which words, and whether several times.
    pub fn sentence(&self) -> String {
        let words = match self.kind {
            Kind::OneOf(words) => format!("; {} is {}", self.values, either(words)),
            _ => String::new(),
        };
        format!("{}{words}{}", self.help, if self.is_repeated { "; may be given several times" } else { "" })
    }
}

/// `bash, zsh or fish`.
pub fn either(words: &[&str]) -> String {
    match words {
        [others @ .., one, last] => {
            format!("{}{one} or {last}", others.iter().map(|each| format!("{each}, ")).collect::<String>())
        }
        _ => words.concat(),
    }
}

impl Kind {
    /// Whether a word may be right: where words are fixed it is one of them.
    pub fn allows(self, word: &OsStr) -> bool {
        match self {
            Kind::OneOf(words) => words.iter().any(|each| word == *each),
            _ => true,
        }
    }

    /// The words that are right, where these can be told.
    pub fn words(self) -> Vec<&'static str> {
        match self {
            Kind::Model => Model::ALL.iter().map(|model| model.name()).collect(),
            Kind::Predicate => Predicate::ALL.iter().map(|predicate| predicate.name()).collect(),
            Kind::Command => commands::ALL.iter().map(|command| command.name).collect(),
            Kind::OneOf(words) => words.to_vec(),
            Kind::Nothing | Kind::Number | Kind::File | Kind::Made(_) => Vec::new(),
        }
    }
}

/// The words of a command beside its options.
pub struct Operands {
    /// As its usage has them.
    pub usage: &'static str,
    /// What one is called.
    pub what: &'static str,
    pub kind: Kind,
    /// How many there may be.
    pub most: usize,
}

impl Operands {
    pub const NONE: Operands = Operands { usage: "", what: "file", kind: Kind::Nothing, most: 0 };

    /// One file, or standard input.
    pub const fn file(usage: &'static str) -> Operands {
        Operands { usage, what: "file", kind: Kind::File, most: 1 }
    }

    pub const fn files(usage: &'static str) -> Operands {
        Operands { usage, what: "file", kind: Kind::File, most: usize::MAX }
    }

    pub const fn one(usage: &'static str, what: &'static str, kind: Kind) -> Operands {
        Operands { usage, what, kind, most: 1 }
    }
}
