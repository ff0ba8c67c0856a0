//! Asking the library for pictures and explanations.

use super::drawing::Drawing;
use diagram::{draw, explain, Asked, Breaks, Part};
use gcr::{Model, Predicate};
use second::record::Record;

/// The name that records have where no other is given.
pub const NAME: &str = "record";

pub fn predicate(number: u32) -> Predicate {
    Predicate::try_from(number).expect("a predicate has this number")
}

pub fn model(number: u32) -> Model {
    Model::try_from(number).expect("a model has this number")
}

/// The picture of a record, read back.
pub fn drawing(asked: Asked, record: &Record) -> Drawing {
    let drawing = part_of(&Part::whole(), asked, record);
    assert!(drawing.marks().into_keys().eq(0..record.events.len()));
    drawing
}

/// The same of a part.
pub fn part_of(part: &Part, asked: Asked, record: &Record) -> Drawing {
    Drawing::read(&draw(NAME, &record.to_bytes(), asked, part).expect("it is drawn").svg)
}

/// The same with nothing asked.
pub fn plain(record: &Record) -> Drawing {
    drawing(Asked::Nothing, record)
}

/// The same with a predicate asked.
pub fn asked(number: u32, record: &Record) -> Drawing {
    drawing(Asked::Predicate(predicate(number)), record)
}

/// The same with a model asked.
pub fn asked_model(number: u32, record: &Record) -> Drawing {
    drawing(Asked::Model(model(number)), record)
}

/// What is told of these breaks.
pub fn explained(breaks: &Breaks, record: &Record) -> String {
    explain(NAME, &record.to_bytes(), breaks).expect("it is told").text
}

/// What is told of a predicate.
pub fn told(number: u32, record: &Record) -> String {
    explained(&Breaks::Of(vec![predicate(number)]), record)
}
