//! One list of refusals: include/gcr_refusals.h. The bindings' sentences and the table of docs/FORMAT.md are those of it.

use gcr::Refusal;
use std::collections::HashSet;

const LIST: &str = include_str!("../../../include/gcr_refusals.h");
const PAGE: &str = include_str!("../../../docs/FORMAT.md");

/// The most that a packed answer has room for.
const NUMBERS: u32 = 1024;

/// Number, question, place and sentence, as the list has them.
fn listed() -> Vec<[String; 4]> {
    let entries = LIST.lines().collect::<String>();
    let entries = entries.split("GCR_REFUSAL(").filter(|entry| entry.starts_with(|first: char| first.is_ascii_digit()));
    let row = |entry: &str| {
        let texts: Vec<_> = entry.split('"').collect();
        let [number, question, _, place, _, sentence, ..] = texts[..] else { panic!("{entry} has no three texts") };
        [number.trim_end_matches([',', ' ']), question, place, sentence].map(str::to_string)
    };
    entries.map(row).collect()
}

/// The rows of the page's table.
fn on_the_page() -> Vec<[String; 4]> {
    let (_, section) = PAGE.split_once("\n## Refusals\n").expect("the page has them");
    let (section, _) = section.split_once("\n## ").expect("more comes after them");
    let cells = |line: &str| line.trim_matches(['|', ' ']).split(" | ").map(str::to_string).collect::<Vec<_>>();
    let rows = section.lines().filter(|line| line.starts_with("| ") && !line.starts_with("| Number"));
    rows.map(|line| cells(line).try_into().unwrap_or_else(|_| panic!("{line} has other cells than four"))).collect()
}

fn sentence(number: u32) -> &'static str {
    Refusal { number, place: 0 }.sentence()
}

#[test]
fn the_page_has_the_list() {
    assert_eq!(on_the_page(), listed());
}

#[test]
fn sentences_are_those_of_the_list_and_other_numbers_have_none() {
    let listed = listed();
    for number in 0..NUMBERS {
        let found = listed.iter().find(|row| row[0] == number.to_string());
        assert_eq!(sentence(number), found.map_or("The scope has no such refusal number.", |row| &row[3]));
    }
}

#[test]
fn every_refusal_has_a_number_and_a_sentence_of_its_own() {
    let listed = listed();
    assert_eq!(listed.len(), 23);
    for column in [0, 3] {
        let different: HashSet<_> = listed.iter().map(|row| &row[column]).collect();
        assert_eq!(different.len(), listed.len());
    }
}

#[test]
fn a_refusal_prints_number_place_and_sentence() {
    let refusal = Refusal { number: 6, place: 0 };
    assert_eq!(refusal.to_string(), "refused 6 0: The number of blocks does not fit the number of events.");
}

/// As an `unwrap` that fails writes it.
#[test]
fn a_refusal_has_its_sentence_where_it_is_debugged() {
    let refusal = gcr::judge_all(&[]).unwrap_err();
    let sentence = "The record's length is not a multiple of 512 from 512 to 33,280 bytes.";
    assert_eq!(format!("{refusal:?}"), format!("Refusal {{ number: 3, place: 0, sentence: {sentence:?} }}"));
}
