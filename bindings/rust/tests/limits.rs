//! The limits are those of the C headers, and fit each other.

use gcr::{Edition, EVENTS_MOST, EXPLAIN_ENTRIES, OPENINGS_BYTES, RECORD_MOST, SCRIPT_MOST, WORK_WORDS};

const HEADERS: [&str; 2] = [include_str!("../../../include/gcr_reader.h"), include_str!("../../../include/gcr.h")];

/// `#define NAME number`, in either header.
fn defined(name: &str) -> usize {
    let line = |header: &'static str| header.lines().find_map(|line| line.strip_prefix(&format!("#define {name} ")));
    let line = HEADERS.into_iter().find_map(line).unwrap_or_else(|| panic!("no header defines {name}"));
    line.split_whitespace().next().and_then(|number| number.parse().ok()).expect("a number")
}

#[test]
fn limits_are_those_of_the_headers() {
    assert_eq!(EVENTS_MOST, defined("GCR_EVENTS_MOST"));
    assert_eq!(RECORD_MOST, defined("GCR_RECORD_MOST"));
    assert_eq!(WORK_WORDS, defined("GCR_WORK_WORDS"));
    assert_eq!(EXPLAIN_ENTRIES, defined("GCR_EXPLAIN_ENTRIES"));
    assert_eq!(SCRIPT_MOST, defined("GCR_SCRIPT_MOST"));
    assert_eq!(OPENINGS_BYTES, defined("GCR_OPENINGS_BYTES"));
}

#[test]
fn a_row_has_a_bit_for_each_event_and_the_words_a_row_for_each() {
    assert_eq!(64 * defined("GCR_ROW_WORDS"), EVENTS_MOST);
    assert_eq!(WORK_WORDS, defined("GCR_ROW_WORDS") * EVENTS_MOST);
    assert_eq!((EVENTS_MOST, RECORD_MOST, WORK_WORDS, EXPLAIN_ENTRIES), (384, 33_280, 2_304, 384));
}

#[test]
fn each_edition_has_its_events() {
    assert_eq!(Edition::ALL.iter().map(|edition| edition.events_most()).collect::<Vec<_>>(), [256, 256, 384]);
    assert_eq!(Edition::ALL.iter().map(|edition| edition.has_terms()).collect::<Vec<_>>(), [false, true, true]);
}
