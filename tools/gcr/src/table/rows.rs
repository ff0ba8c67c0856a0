//! The rows of a text, one by one.

use super::form::Form;
use crate::text::{unended, Bad, Word};
use std::iter::Enumerate;
use std::str::Lines;

/// A row that is neither blank nor a remark.
pub struct Row<'a> {
    pub cells: Vec<Word<'a>>,
    /// Where its line ends.
    pub end: Word<'a>,
    /// Where a cell is empty that cannot be: of a header row that makes no difference.
    gap: Option<Bad>,
}

impl<'a> Row<'a> {
    /// What stands at this place. A row that is too short has nothing there, at its end.
    pub fn cell(&self, place: usize) -> Word<'a> {
        self.cells.get(place).copied().unwrap_or(self.end)
    }

    pub fn first(&self) -> Word<'a> {
        self.cell(0)
    }

    /// Every cell stands under its column.
    pub fn has_no_gap(&self) -> Result<(), Bad> {
        self.gap.clone().map_or(Ok(()), Err)
    }

    /// Without empty cells at its end: spreadsheets make all rows as long as the longest.
    pub fn filled(&self) -> &[Word<'a>] {
        let last = self.cells.iter().rposition(|cell| !cell.text.is_empty());
        &self.cells[..last.map_or(0, |last| last + 1)]
    }
}

pub struct Rows<'a> {
    form: Form,
    separator: char,
    text: &'a str,
    lines: Enumerate<Lines<'a>>,
    /// How many lines were read.
    read: usize,
}

impl<'a> Rows<'a> {
    pub fn of(form: Form, text: &'a str) -> Rows<'a> {
        Rows { form, separator: form.separator(text), text, lines: text.lines().enumerate(), read: 0 }
    }

    /// The next row, in text of at most so many cells.
    pub fn next(&mut self, most: usize) -> Result<Option<Row<'a>>, Bad> {
        for (before, text) in self.lines.by_ref() {
            self.read = before + 1;
            let line = Word { line: self.read, column: 1, text };
            let cells = self.form.cells(line, self.separator, most)?;
            let row = Row { cells, end: line.rest(text.len()), gap: self.form.gap(line) };
            if !row.filled().is_empty() {
                return Ok(Some(row));
            }
        }
        Ok(None)
    }

    /// Where a further row would stand.
    pub fn end(&self) -> Word<'a> {
        Word { line: self.read + 1, column: 1, text: "" }
    }

    /// What is told of a text that may be cut in its last line: any but a remark and white space.
    pub fn unended(&self) -> Option<Bad> {
        let cells = |line| self.form.cells(line, self.separator, usize::MAX);
        unended(self.text, |line| !line.text.trim().is_empty() && cells(line).is_ok_and(|cells| !cells.is_empty()))
    }
}
