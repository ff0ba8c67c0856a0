//! Texts that end too early, or lines that do: none of them says another record.

use super::samples::random;
use super::{written, Form, Others};
use crate::make::encoded;
use gcr::Record;

fn made(form: Form, text: &str) -> Option<Vec<u8>> {
    encoded(form, Others::Refused, text).ok().map(|made| made.record)
}

/// Of a text with letters of one byte alone.
fn is_refused_wherever_it_is_cut(form: Form, text: &str) {
    for cut in 0..text.len() {
        assert_eq!(made(form, &text[..cut]), None, "{}", &text[..cut]);
    }
}

/// Of all these texts that were made of one.
fn is_refused_or_the_same(form: Form, text: &str, cuts: impl Iterator<Item = String>) {
    let whole = made(form, text);
    for cut in cuts {
        let made = made(form, &cut);
        assert!(made.is_none() || made == whole, "another record of\n{cut}");
    }
}

/// An editor, or what else handles lines, ends the last one.
fn ended(text: &str) -> impl Iterator<Item = String> + '_ {
    (0..=text.len()).map(|cut| format!("{}\n", &text[..cut]))
}

/// All lines are cut at one width.
fn narrowed(text: &str) -> impl Iterator<Item = String> + '_ {
    let widest = text.lines().map(str::len).max().unwrap_or(0);
    (0..=widest).map(|width| text.lines().map(|line| format!("{}\n", &line[..width.min(line.len())])).collect())
}

#[test]
fn no_cut_of_what_is_written_says_a_record() {
    let samples = random(400).filter(|(_, bytes)| bytes.len() <= 512 * 4);
    let records: Vec<Record> = samples.map(|(_, bytes)| Record::read(&bytes).expect("a sample passes")).collect();
    for (record, form) in records.iter().flat_map(|record| [(record, Form::Text), (record, Form::Csv)]) {
        let text = written(form, record);
        is_refused_wherever_it_is_cut(form, &text);
        is_refused_or_the_same(form, &text, ended(&text));
        is_refused_or_the_same(form, &text, narrowed(&text));
    }
    assert!(records.len() >= 20 && records.iter().any(|record| record.count() == 0), "{} records", records.len());
}

#[test]
fn no_width_of_a_long_record_is_another() {
    let long = random(400).filter(|(_, bytes)| bytes.len() > 512 * 30).take(4);
    let records: Vec<Record> = long.map(|(_, bytes)| Record::read(&bytes).expect("a sample passes")).collect();
    for (record, form) in records.iter().flat_map(|record| [(record, Form::Text), (record, Form::Csv)]) {
        let text = written(form, record);
        is_refused_or_the_same(form, &text, narrowed(&text));
    }
    assert_eq!(records.len(), 4);
}
