//! A row's event.

use super::brackets;
use super::column::Column;
use super::columns::Columns;
use super::names::{is_nothing, kind, state};
use super::ranges;
use super::rows::Row;
use crate::text::{Bad, Word};
use gcr::Event;

/// A row under its columns.
pub struct EventRow<'r, 'a> {
    pub columns: &'r Columns<'a>,
    pub row: &'r Row<'a>,
}

impl<'a> EventRow<'_, 'a> {
    /// Only what cannot be put into a record's fields is refused here: the rest is for the reader to say.
    pub fn event(&self, number: usize) -> Result<Event, Bad> {
        self.columns.fit(self.row)?;
        self.counts(number)?;
        let mut event = Event::blank();
        event.site = self.number(Column::Site, u8::MAX.into())? as u8;
        event.kind = kind(self.cell(Column::Kind))?;
        event.object = self.number(Column::Object, u8::MAX.into())? as u8;
        event.value = self.unless_nothing(Column::Value, u32::MAX.into())?.map(|value| value as u32);
        event.start = self.number(Column::Start, u64::MAX)?;
        event.end = self.unless_nothing(Column::Return, u64::MAX)?;
        event.position = self.number(Column::Position, u16::MAX.into())? as u16;
        event.visible = ranges::read(self.seen()?)?;
        self.agrees_in_state(&event)?;
        Ok(event)
    }

    pub fn cell(&self, column: Column) -> Word<'a> {
        self.columns.cell(column, self.row).unwrap_or(self.row.end)
    }

    /// What it sees, without brackets. A column whose name has them asks for them: a cell without was cut.
    pub fn seen(&self) -> Result<Word<'a>, Bad> {
        let cell = self.cell(Column::Sees);
        match (brackets::within(cell), self.columns.in_brackets(Column::Sees)) {
            (Some(inside), _) => Ok(inside),
            (None, Some(name)) => Err(brackets::missing(name, cell)),
            (None, None) => Ok(cell),
        }
    }

    fn number(&self, column: Column, most: u64) -> Result<u64, Bad> {
        self.cell(column).number(column.name(), most)
    }

    fn unless_nothing(&self, column: Column, most: u64) -> Result<Option<u64>, Bad> {
        let cell = self.cell(column);
        if is_nothing(&cell) {
            return Ok(None);
        }
        let nothing = column.nothing().unwrap_or_default();
        let beyond = || cell.beyond(column.name(), &format!("0 to {most}, or {nothing}"));
        cell.at_most(most).map(Some).ok_or_else(beyond)
    }

    /// Where rows are numbered, they count.
    fn counts(&self, number: usize) -> Result<(), Bad> {
        match self.columns.cell(Column::Event, self.row) {
            Some(cell) if cell.at_most(u64::MAX) != Some(number as u64) => {
                let is = cell.found();
                Err(cell.bad(format!("the event is {is}, and this row is event {number}: rows count from 0")))
            }
            _ => Ok(()),
        }
    }

    /// Where the state is said, the return says the same.
    fn agrees_in_state(&self, event: &Event) -> Result<(), Bad> {
        let Some(cell) = self.columns.cell(Column::State, self.row).filter(|cell| !cell.text.is_empty()) else {
            return Ok(());
        };
        match (state(cell)?, event.end) {
            (true, Some(end)) => Err(cell.bad(format!("a pending event has no return, and this one has {end}"))),
            (false, None) => Err(cell.bad("a returned event has a return, and this one has none")),
            _ => Ok(()),
        }
    }
}
