//! The row that names the columns.

use super::brackets;
use super::column::Column;
use super::form::Form;
use super::others::{self, Others};
use super::rows::Row;
use crate::text::{Bad, Word};

/// Which columns there are, in their order.
pub struct Columns<'a> {
    form: Form,
    named: Vec<Named<'a>>,
}

struct Named<'a> {
    name: Word<'a>,
    /// None is passed over.
    column: Option<Column>,
}

impl<'a> Columns<'a> {
    /// Whether a row is the one that names them: no header row has any of their names.
    pub fn are_in(row: &Row) -> bool {
        row.cells.iter().any(|cell| Column::named(*cell).is_some())
    }

    pub fn read(form: Form, others: Others, row: &Row<'a>) -> Result<Columns<'a>, Bad> {
        row.has_no_gap()?;
        let mut columns = Columns { form, named: Vec::new() };
        for &cell in row.filled() {
            columns.name(others, cell)?;
        }
        columns.are_all_there(row)?;
        columns.end_in_sees(row)?;
        Ok(columns)
    }

    fn name(&mut self, others: Others, name: Word<'a>) -> Result<(), Bad> {
        let column = Column::named(name);
        match column {
            None if name.text.is_empty() || others == Others::Refused => Err(others::unknown(name)),
            Some(column) if self.place(column).is_some() => {
                Err(name.bad(format!("the column {} is named twice", column.name())))
            }
            _ => {
                self.named.push(Named { name, column });
                Ok(())
            }
        }
    }

    fn are_all_there(&self, row: &Row) -> Result<(), Bad> {
        let is_missing = |column: &Column| !column.may_be_left_out() && self.place(*column).is_none();
        match Column::ALL.into_iter().find(is_missing) {
            Some(column) => Err(row.first().bad(format!("the column {} is missing in this row", column.name()))),
            None => Ok(()),
        }
    }

    /// In text, where ranges are separated as cells are.
    fn end_in_sees(&self, row: &Row) -> Result<(), Bad> {
        match self.place(Column::Sees) {
            Some(place) if self.form == Form::Text && place + 1 < self.count() => {
                Err(row.cell(place).bad("in text the column sees is the last"))
            }
            _ => Ok(()),
        }
    }

    pub fn count(&self) -> usize {
        self.named.len()
    }

    /// The names of those that are passed over.
    pub fn others(&self) -> Vec<Word<'a>> {
        self.named.iter().filter(|named| named.column.is_none()).map(|named| named.name).collect()
    }

    pub fn place(&self, column: Column) -> Option<usize> {
        self.named.iter().position(|named| named.column == Some(column))
    }

    /// What a row has in this column, if the table has such a column.
    pub fn cell(&self, column: Column, row: &Row<'a>) -> Option<Word<'a>> {
        self.place(column).map(|place| row.cell(place))
    }

    /// The name of this column, if that is in brackets: then its cells are too.
    pub fn in_brackets(&self, column: Column) -> Option<Word<'a>> {
        self.named.iter().find(|named| named.column == Some(column) && named.is_in_brackets()).map(|named| named.name)
    }

    /// Every column has its cell, in CSV an empty one too: a row with fewer was cut. No cell is without a column.
    pub fn fit(&self, row: &Row) -> Result<(), Bad> {
        row.has_no_gap()?;
        let over = row.cells.iter().skip(self.count()).find(|cell| !cell.text.is_empty());
        match (over, self.named.get(row.cells.len())) {
            (Some(cell), _) => Err(cell.bad(format!("over {} no column is named", cell.shown()))),
            (None, Some(missing)) => Err(row.end.bad(format!("the row ends before its {}", missing.told()))),
            _ => Ok(()),
        }
    }
}

impl Named<'_> {
    fn is_in_brackets(&self) -> bool {
        brackets::within(self.name).is_some()
    }

    /// Its name, and what a cell that is forgotten may have.
    fn told(&self) -> String {
        let nothing = match self.is_in_brackets() {
            true => self.column.map(|_| brackets::NOTHING),
            false => self.column.and_then(Column::nothing),
        };
        let may_be = nothing.map_or(String::new(), |nothing| format!(", which may be {nothing}"));
        format!("{}{may_be}", self.name.shown())
    }
}
