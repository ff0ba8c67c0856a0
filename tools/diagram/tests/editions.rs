//! A record is drawn and explained alike in whatever edition it comes, and as many events as it may have.

mod support;

use diagram::{draw, Asked, Part};
use second::record::{Edition, Event, Record};
use support::asking::{plain, told};
use support::records;

/// Writes of one site, each of which sees the one before it.
fn in_turn(edition: Edition, count: usize) -> Record {
    let write = |number: usize| {
        let write = Event::write(0, 0, number as u32).at(2 * number as u64, 2 * number as u64 + 1);
        write.sees(&number.checked_sub(1).into_iter().collect::<Vec<_>>())
    };
    Record::in_order(1, (0..count).map(write).collect()).in_edition(edition)
}

/// Its picture, and what is told of predicate 10.
fn shown(record: &Record) -> (String, String) {
    let picture = draw("record", &record.to_bytes(), Asked::Nothing, &Part::whole()).expect("it is drawn");
    (picture.svg, told(10, record))
}

#[test]
fn pictures_and_words_are_the_same_in_every_edition() {
    let small = [0, 1, 6, 7, 8].map(|count| in_turn(Edition::GCR1, count));
    let all = records::random().step_by(3).map(|(_, record)| record).chain(small).chain(records::shipped());
    for record in all {
        let later = Edition::ALL.into_iter().filter(|later| later.headed || !record.edition.headed);
        for edition in later {
            assert_eq!(shown(&record.clone().in_edition(edition)), shown(&record), "{edition:?}");
        }
    }
}

#[test]
fn all_events_of_the_longest_records_are_drawn() {
    for (edition, count) in [(Edition::GCR2, 256), (Edition::GCR3, 257), (Edition::GCR3, 383), (Edition::GCR3, 384)] {
        let numbers = plain(&in_turn(edition, count)).marks().into_keys();
        assert!(numbers.eq(0..count), "{count} in {edition:?}");
    }
}

#[test]
fn more_events_than_an_edition_has_are_refused() {
    for (edition, count, number) in [(Edition::GCR2, 257, 5), (Edition::GCR2, 384, 5), (Edition::GCR3, 385, 3)] {
        let bytes = in_turn(edition, count).to_bytes();
        let refused = draw("record", &bytes, Asked::Nothing, &Part::whole()).expect_err("it is refused").to_string();
        assert!(refused.starts_with(&format!("refused {number} 0: ")), "{count}: {refused}");
    }
}
