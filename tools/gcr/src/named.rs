//! Predicates and models by the words of a command line: their names or numbers.

use crate::ending::Failure;
use crate::unknown::unknown;
use crate::words::Words;
use gcr::{Model, Predicate};
use std::ffi::{OsStr, OsString};
use std::str::FromStr;

/// Of each time that `--predicate` was given.
pub fn predicates(words: &Words) -> Result<Vec<Predicate>, Failure> {
    all(words, "--predicate", "predicate", Predicate::ALL, Predicate::name)
}

/// Of each time that `--model` was given.
pub fn models(words: &Words) -> Result<Vec<Model>, Failure> {
    all(words, "--model", "model", Model::ALL, Model::name)
}

/// Each once, in the order in which they were given.
fn all<T: FromStr + Copy + PartialEq + 'static>(
    words: &Words,
    option: &str,
    kind: &str,
    right: &'static [T],
    name: fn(T) -> &'static str,
) -> Result<Vec<T>, Failure> {
    let one = |word: &OsStr| {
        let word = word.to_string_lossy();
        let right = || right.iter().map(|&each| name(each));
        let unknown = |_| Failure::unclear(format!("{} (gcr list tells them all)", unknown(kind, &word, right())));
        word.parse::<T>().map_err(unknown)
    };
    let mut all = Vec::new();
    for word in words.all(option).into_iter().flatten().map(OsString::as_os_str) {
        let named = one(word)?;
        if !all.contains(&named) {
            all.push(named);
        }
    }
    Ok(all)
}
