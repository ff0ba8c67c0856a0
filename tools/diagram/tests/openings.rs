//! A picture marks an opening where a read holds one, and nowhere else.

mod support;

use second::openings::Openings;
use second::record::{Event, Record};
use support::asking::plain;
use support::drawing::Drawing;
use support::records;

const LEGEND: &str = "(opening): the read sees no write on its object and holds the object's opening";

fn sees_write(record: &Record, read: &Event) -> bool {
    let is_seen_write =
        |(number, event): (usize, &Event)| read.visible[number] && event.is_write() && event.object == read.object;
    record.events.iter().enumerate().any(is_seen_write)
}

fn due(record: &Record) -> Vec<usize> {
    let opening = |event: &Event| record.openings.of(event.object.into());
    let is_due = |event: &Event| event.value.is_some() && event.value == opening(event) && !sees_write(record, event);
    (0..record.events.len())
        .filter(|&number| record.events[number].is_read() && is_due(&record.events[number]))
        .collect()
}

/// The events in whose marks an element of this name says so.
fn marked(drawing: &Drawing, name: &str) -> Vec<usize> {
    drawing
        .named(name)
        .filter(|element| element.text.contains("(opening)"))
        .filter_map(|element| element.event)
        .collect()
}

#[test]
fn only_reads_that_hold_their_opening_are_marked() {
    let mut openings = 0;
    for record in records::random().map(|(_, record)| record).chain(records::shipped()) {
        let (drawing, due) = (plain(&record), due(&record));
        assert_eq!(marked(&drawing, "title"), due);
        assert_eq!(marked(&drawing, "text"), due);
        assert_eq!(drawing.joined("note").contains(LEGEND), !due.is_empty());
        openings += due.len();
    }
    assert!(openings >= 50, "{openings}");
}

#[test]
fn the_same_value_from_a_write_is_no_opening() {
    let read = Event::read(0, 0, Some(7)).at(2, 3);
    let of = |read: Event| Record::in_order(1, vec![Event::write(0, 0, 7).at(0, 1), read]);
    let opened = |read: Event| plain(&of(read).opened(Openings::none().with(0, 7)));
    assert_eq!(marked(&opened(read.clone().sees(&[0])), "text"), []);
    assert_eq!(marked(&opened(read.clone()), "text"), [1]);
    assert_eq!(marked(&plain(&of(read)), "text"), []);
}

#[test]
fn the_rehearsed_day_shows_where_openings_end() {
    let drawing = plain(&records::shipped()[4]);
    let labels = ["R 5→300 (opening)", "W 5=350", "R 5→300 (opening)", "R 5→350", "R 31→0 (opening)", "R 7→none"];
    assert_eq!(drawing.texts("label"), labels);
}

/// From 81 events on marks have no labels, so that there is no sign to explain; pointing at a mark still tells.
#[test]
fn a_small_mark_tells_on_pointing_at_it() {
    let read = |number: u64| Event::read(0, (number % 2) as u8, (number % 2 == 0).then_some(40)).at(number, number);
    let record = Record::in_order(1, (0..90).map(read).collect()).opened(Openings::none().with(0, 40));
    let drawing = plain(&record);
    assert_eq!(marked(&drawing, "title"), due(&record));
    assert!(marked(&drawing, "text").is_empty() && due(&record).len() == 45);
    assert!(!drawing.joined("note").contains(LEGEND));
}
