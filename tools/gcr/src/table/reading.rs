//! Reading a table.

use super::column::Column;
use super::columns::Columns;
use super::entries::Entry;
use super::events::EventRow;
use super::form::Form;
use super::header::Header;
use super::others::{passed_over, Others};
use super::rows::{Row, Rows};
use super::whole::{are_not_too_many, is_whole};
use crate::text::{Bad, Word};
use gcr::Record;

/// What a text says, and where.
pub struct Table<'a> {
    pub record: Record,
    pub header: Header<'a>,
    columns: Columns<'a>,
    /// Event k's stands at k.
    rows: Vec<Row<'a>>,
    /// Where the text may have been cut.
    doubt: Option<Bad>,
}

impl<'a> Table<'a> {
    pub fn read(form: Form, others: Others, text: &'a str) -> Result<Table<'a>, Bad> {
        let mut rows = Rows::of(form, text);
        let (header, named) = head(form, &mut rows)?;
        let columns = Columns::read(form, others, &named)?;
        let mut record = header.record(named.first())?;
        let events = event_rows(&mut rows, columns.count())?;
        let doubt = rows.unended();
        is_whole(&header, &events, doubt.as_ref())?;
        record.edition = header.edition(events.len());
        are_not_too_many(record.edition, &events)?;
        let mut table = Table { record, header, columns, rows: events, doubt };
        table.fill()?;
        Ok(table)
    }

    fn fill(&mut self) -> Result<(), Bad> {
        for (number, row) in self.rows.iter().enumerate() {
            self.record.push(EventRow { columns: &self.columns, row }.event(number)?);
        }
        Ok(())
    }

    /// The row of this event.
    pub fn row(&self, event: usize) -> Option<EventRow<'_, 'a>> {
        self.rows.get(event).map(|row| EventRow { columns: &self.columns, row })
    }

    /// What is to be said of a text though it is taken.
    pub fn remarks(&self) -> Vec<String> {
        let others = passed_over(&self.columns.others());
        let grown = self.header.grown(self.rows.len());
        others.into_iter().chain(grown).chain(self.doubt.iter().map(Bad::to_string)).collect()
    }
}

/// The rows up to the one that names the columns, and that one.
fn head<'a>(form: Form, rows: &mut Rows<'a>) -> Result<(Header<'a>, Row<'a>), Bad> {
    let mut header = Header::default();
    loop {
        let row = rows.next(usize::MAX)?.ok_or_else(|| no_columns(rows.end()))?;
        if Columns::are_in(&row) {
            return Ok((header, row));
        }
        let entry = Entry::named(row.first()).ok_or_else(|| no_head(form, row.first()))?;
        header.take(entry, &row)?;
    }
}

fn event_rows<'a>(rows: &mut Rows<'a>, columns: usize) -> Result<Vec<Row<'a>>, Bad> {
    let mut events = Vec::new();
    while let Some(row) = rows.next(columns)? {
        // a site's own column may have such a word too
        match Entry::named(row.first()).filter(|entry| entry.takes(&row).is_ok()) {
            Some(entry) => {
                let what = format!("{} is said before the columns, and not after them", entry.name());
                return Err(row.first().bad(what));
            }
            None => events.push(row),
        }
    }
    Ok(events)
}

fn no_head(form: Form, first: Word) -> Bad {
    match form == Form::Text && first.text.contains(',') {
        true => first.bad("rows with commas are read with --csv"),
        false => first.unknown(&[("header word", Entry::names()), ("column", Column::names())]),
    }
}

fn no_columns(end: Word) -> Bad {
    end.bad(format!("the row of columns is missing: {}", Column::names().join(" ")))
}
