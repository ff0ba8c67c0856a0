//! Writing a table.

use super::brackets;
use super::column::Column;
use super::form::Form;
use super::header;
use super::names::{kind_name, state_name};
use super::ranges;
use gcr::{Event, Record};

pub fn written(form: Form, record: &Record) -> String {
    let columns = Column::ALL.map(|column| column.heading().to_string()).to_vec();
    let row = |(number, event): (u16, &Event)| Column::ALL.map(|column| cell(form, column, number, event)).to_vec();
    let table: Vec<_> = [columns].into_iter().chain(record.events().map(row)).collect();
    form.joined(&header::rows(record), &table)
}

fn cell(form: Form, column: Column, number: u16, event: &Event) -> String {
    let nothing = || nothing(form, column);
    match column {
        Column::Event => number.to_string(),
        Column::Site => event.site.to_string(),
        Column::Kind => kind_name(event.kind).to_string(),
        Column::Object => event.object.to_string(),
        Column::Value => event.value.map_or_else(nothing, |value| value.to_string()),
        Column::State => state_name(event.is_pending()).to_string(),
        Column::Start => event.start.to_string(),
        Column::Return => event.end.map_or_else(nothing, |end| end.to_string()),
        Column::Position => event.position.to_string(),
        Column::Sees => brackets::around(&ranges::written(&event.visible)),
    }
}

/// A cell of text cannot be empty, so a word stands there.
fn nothing(form: Form, column: Column) -> String {
    match form {
        Form::Text => column.nothing().unwrap_or_default().to_string(),
        Form::Csv => String::new(),
    }
}
