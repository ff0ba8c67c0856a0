//! The title names the record.

mod support;

use diagram::{draw, Asked, Part};
use gcr::Model;
use support::drawing::Drawing;
use support::records;

/// The picture of a record of this name.
fn drawn_as(name: &str) -> String {
    let record = records::write_then_read(true).to_bytes();
    draw(name, &record, Asked::Model(Model::Causal), &Part::whole()).expect("it is drawn").svg
}

#[test]
fn the_title_names_the_record() {
    let drawing = Drawing::read(&drawn_as("monday.gcr"));
    assert_eq!(drawing.joined("title"), "monday.gcr: 2 events at 1 site");
    assert_eq!(drawing.named("title").next().expect("a picture has one").text, "monday.gcr: 2 events at 1 site");
}

#[test]
fn a_name_cannot_be_taken_for_a_part_of_the_picture() {
    let picture = drawn_as("a&b <text> \"c\".gcr");
    assert!(picture.contains(">a&amp;b &lt;text&gt; \"c\".gcr: 2 events at 1 site<"));
    assert_eq!(Drawing::read(&picture).joined("title"), "a&b <text> \"c\".gcr: 2 events at 1 site");
}

#[test]
fn letters_that_xml_cannot_have_are_replaced() {
    let title = Drawing::read(&drawn_as("a\u{1}b\nc\u{ffff}d\u{7f}.gcr")).joined("title");
    assert_eq!(title, "a\u{fffd}b\u{fffd}c\u{fffd}d\u{fffd}.gcr: 2 events at 1 site");
}

#[test]
fn a_long_name_goes_on_in_the_next_line_and_stays_whole() {
    let name = format!("{}.gcr", "Wm".repeat(100));
    let drawing = Drawing::read(&drawn_as(&name));
    assert!(drawing.texts("title").len() > 1);
    assert_eq!(drawing.texts("title").concat().replace(": 2 events at 1 site", ""), name);
    let size = drawing.size();
    assert!(drawing.named("text").all(|text| size.holds(&text.frame())));
}
