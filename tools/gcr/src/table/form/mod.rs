//! How the cells of a row are separated.

mod csv;
mod spaced;

use crate::text::{Bad, Word};
use std::ffi::OsStr;
use std::path::Path;

#[derive(Clone, Copy, Debug, PartialEq, Eq)]
pub enum Form {
    /// By spaces, aligned: for people.
    Text,
    /// By commas: for spreadsheets and other programs.
    Csv,
}

impl Form {
    /// CSV where that is asked for, or where the file's name ends so.
    pub fn of(asked: bool, file: Option<&OsStr>) -> Form {
        let ending = file.and_then(|file| Path::new(file).extension());
        let is_named_so = ending.is_some_and(|ending| ending.eq_ignore_ascii_case("csv"));
        if asked || is_named_so {
            Form::Csv
        } else {
            Form::Text
        }
    }

    /// What separates the cells of this text.
    pub fn separator(self, text: &str) -> char {
        match self {
            Form::Text => ' ',
            Form::Csv => csv::separator(text),
        }
    }

    /// The cells of a line, none where it is a remark. In text the last of so many reaches to the line's end.
    pub fn cells<'a>(self, line: Word<'a>, separator: char, most: usize) -> Result<Vec<Word<'a>>, Bad> {
        match self {
            Form::Text => Ok(spaced::cells(line, most)),
            Form::Csv => csv::cells(line, separator),
        }
    }

    /// What is wrong with a line that has an empty cell where none can be read.
    pub fn gap(self, line: Word) -> Option<Bad> {
        match self {
            Form::Text => spaced::gap(line),
            Form::Csv => None,
        }
    }

    /// Header rows, then the row of columns and the rows under it.
    pub fn joined(self, header: &[Vec<String>], table: &[Vec<String>]) -> String {
        match self {
            Form::Text => spaced::joined(header, table),
            Form::Csv => csv::joined(header, table),
        }
    }
}

#[cfg(test)]
mod tests {
    use super::*;

    #[test]
    fn the_ending_of_a_name_tells_the_form() {
        let of = |name: &str| Form::of(false, Some(name.as_ref()));
        assert_eq!(
            [of("day.csv"), of("a/day.CSV"), of("csv"), of("day.txt")],
            [Form::Csv, Form::Csv, Form::Text, Form::Text]
        );
        assert_eq!([Form::of(true, None), Form::of(false, None)], [Form::Csv, Form::Text]);
    }
}
