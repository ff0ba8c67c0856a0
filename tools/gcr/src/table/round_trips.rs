//! Records of every shape through text and CSV, and back.

use super::samples::{fixed, random, Named};
use super::{written, Form, Others};
use crate::make::{encoded, Encoded};
use ::second::limits::MOST_EVENTS;
use ::second::record as second;
use gcr::{Edition, Record};

fn record(bytes: &[u8]) -> Record {
    Record::read(bytes).expect("a sample passes")
}

/// The text makes the same bytes, and these the same text.
fn goes_and_comes(form: Form, (name, bytes): &Named) {
    let text = written(form, &record(bytes));
    let made = encoded(form, Others::Refused, &text).unwrap_or_else(|what| panic!("{name}: {what} in\n{text}"));
    assert!(made == Encoded { record: bytes.clone(), remarks: vec![] }, "{name}: the record is another after\n{text}");
    assert_eq!(written(form, &record(&made.record)), text, "{name}");
}

/// What a row should say, by the second checker's reading of the record.
fn expected(number: usize, event: &second::Event) -> Vec<String> {
    let or = |number: Option<u64>, word: &str| number.map_or(word.to_string(), |number| number.to_string());
    let kind = if event.is_write() { "write" } else { "read" };
    let state = if event.pending() { "pending" } else { "returned" };
    vec![
        number.to_string(),
        event.site.to_string(),
        kind.to_string(),
        event.object.to_string(),
        or(event.value.map(u64::from), "none"),
        state.to_string(),
        event.start.to_string(),
        or(event.end, "-"),
        event.position.to_string(),
    ]
}

fn seen(ranges: &str) -> Vec<usize> {
    let number = |word: &str| word.parse::<usize>().expect("a number");
    let range = |range: &str| match range.split_once("..") {
        Some((first, last)) => (number(first)..=number(last)).collect(),
        None => vec![number(range)],
    };
    ranges.split_whitespace().flat_map(range).collect()
}

fn says_what_the_second_checker_reads((name, bytes): &Named) {
    let text = written(Form::Text, &record(bytes));
    let other = second::Record::from_bytes(bytes);
    let rows: Vec<&str> = text.lines().skip_while(|line| !line.starts_with("event ")).skip(1).collect();
    assert_eq!(rows.len(), other.events.len(), "{name}");
    for (number, (row, event)) in rows.iter().zip(&other.events).enumerate() {
        let cells: Vec<&str> = row.split_whitespace().collect();
        assert_eq!(cells[..9], expected(number, event), "{name}");
        let visible: Vec<usize> = (0..MOST_EVENTS).filter(|&other| event.visible[other]).collect();
        let ranges = cells[9..].join(" ");
        let ranges = ranges.strip_prefix('[').and_then(|rest| rest.strip_suffix(']')).expect("brackets");
        assert_eq!(seen(ranges), visible, "{name}, event {number}");
    }
}

#[test]
fn random_records_come_back_from_text_and_csv() {
    let records: Vec<Named> = random(7_000).collect();
    assert!(records.len() >= 4_000, "{} records", records.len());
    for named in &records {
        goes_and_comes(Form::Text, named);
        goes_and_comes(Form::Csv, named);
    }
    let is_among = |is: fn(&Record) -> bool| records.iter().any(|(_, bytes)| is(&record(bytes)));
    assert!(is_among(|record| record.edition == Edition::Gcr1 && record.count() == 256));
    assert!(is_among(|record| record.edition == Edition::Gcr2 && record.count() == 256));
    assert!(is_among(|record| record.edition == Edition::Gcr3 && record.count() == 384));
    assert!(is_among(|record| record.edition == Edition::Gcr3 && record.count() == 6));
    assert!(is_among(|record| record.difference > 1_000 && record.openings.get(31).is_some()));
    assert!(is_among(|record| record.sites == 8 && record.events().any(|(_, event)| event.is_pending())));
    assert!(is_among(|record| record.count() == 0));
}

#[test]
fn fixed_records_come_back_from_text_and_csv() {
    let records: Vec<Named> = fixed().collect();
    assert!(records.len() >= 500, "{} records", records.len());
    for named in &records {
        goes_and_comes(Form::Text, named);
        goes_and_comes(Form::Csv, named);
    }
}

#[test]
fn text_says_what_the_second_checker_reads() {
    random(1_500).chain(fixed()).for_each(|named| says_what_the_second_checker_reads(&named));
}
