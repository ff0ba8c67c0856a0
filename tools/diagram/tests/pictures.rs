//! Pictures from a record's bytes to their text.

mod support;

use diagram::{draw, Asked, Part};
use gcr::{Model, Predicate};
use second::predicates::{Answer, Judged, PREDICATES};
use support::asking::predicate;
use support::records;

const LISTING: &[u8] = include_bytes!("../../../records/listing.gcr");
const STALE_READ: &[u8] = include_bytes!("../../../records/stale-read.gcr");

fn drawn(bytes: &[u8], asked: Asked) -> String {
    draw("record", bytes, asked, &Part::whole()).expect("it is drawn").svg
}

fn refused(bytes: &[u8], asked: Asked) -> String {
    draw("record", bytes, asked, &Part::whole()).expect_err("it is refused").to_string()
}

/// The records of the pictures that documents have, what is asked of them, and the parts that are drawn.
fn kept() -> [(&'static str, Asked, Part); 6] {
    let busy_day = Part { around: Some((23, 150)), sites: vec![4, 5], objects: Vec::new() };
    let asked = |number| Asked::Predicate(predicate(number));
    let whole = |name, number| (name, asked(number), Part::whole());
    let stale_read = ("stale-read", Asked::Model(Model::Causal), Part::whole());
    let [listing, opening] = [whole("listing", 3), whole("opening", 1)];
    let [early_read, long_way] = [whole("early-read", 3), whole("long-way", 10)];
    [stale_read, listing, opening, early_read, long_way, ("busy-day", asked(5), busy_day)]
}

#[test]
fn the_pictures_of_the_documents_are_what_is_drawn() {
    let root = format!("{}/../..", env!("CARGO_MANIFEST_DIR"));
    for (name, asked, part) in kept() {
        let record = std::fs::read(format!("{root}/records/{name}.gcr")).expect("it ships");
        let picture = draw(&format!("{name}.gcr"), &record, asked, &part);
        let kept = std::fs::read_to_string(format!("{root}/docs/pictures/{name}.svg")).expect("it is kept");
        assert!(picture.expect("it is drawn").svg == kept, "{name}");
    }
}

/// In the heading's words, without the name.
#[test]
fn what_is_drawn_is_told_in_short() {
    let told = |bytes, asked, part: &Part| draw("record", bytes, asked, part).expect("it is drawn").told;
    let whole = Part::whole();
    let broken = "3 events at 2 sites; model 4 Causal is broken by predicate 10 CausalVisibility at events 0 and 2";
    assert_eq!(told(STALE_READ, Asked::Model(Model::Causal), &whole), broken);
    assert_eq!(told(LISTING, Asked::Model(Model::Causal), &whole), "5 events at 2 sites; model 4 Causal is met");
    let part = Part { sites: vec![1], ..Part::whole() };
    assert_eq!(told(STALE_READ, Asked::Nothing, &part), "2 of 3 events at 1 of 2 sites");
}

#[test]
fn the_record_of_a_long_way_is_as_it_is_made_here() {
    let long_way = records::long_way();
    assert!(long_way.to_bytes() == include_bytes!("../../../records/long-way.gcr"));
    let judged = Judged::new(&long_way);
    let broken: Vec<u32> = PREDICATES.filter(|&predicate| judged.answer(predicate) != Answer::Met).collect();
    assert_eq!(broken, [2, 5, 9, 10, 13]);
}

#[test]
fn the_record_of_a_busy_day_is_as_it_is_made_here() {
    let busy_day = records::busy_day();
    assert!(busy_day.to_bytes() == include_bytes!("../../../records/busy-day.gcr"));
    let judged = Judged::new(&busy_day);
    assert_eq!((busy_day.events.len(), busy_day.sites), (256, 8));
    assert!([5, 10].iter().all(|&predicate| judged.answer(predicate) != Answer::Met));
    assert!([1, 11].iter().all(|&predicate| judged.answer(predicate) == Answer::Met));
}

#[test]
fn the_caption_tells_the_verdict() {
    let broken = drawn(STALE_READ, Asked::Predicate(Predicate::MonotonicReads));
    assert!(broken.contains(">predicate 5 MonotonicReads is broken at events 0 and 2<"));
    assert!(drawn(LISTING, Asked::Model(Model::Causal)).contains(">model 4 Causal is met<"));
}

#[test]
fn labels_are_those_of_the_events() {
    let picture = drawn(STALE_READ, Asked::Nothing);
    for label in ["W 0=7", "R 0→7", "R 0→none", "ar 0", "ar 1", "ar 2"] {
        assert!(picture.contains(&format!(">{label}<")));
    }
}

#[test]
fn a_refused_record_gives_no_picture() {
    let length = "refused 3 0: The record's length is not a multiple of 512 from 512 to 33,280 bytes.";
    assert_eq!(refused(&[], Asked::Nothing), length);
    assert_eq!(refused(&[0; gcr::RECORD_MOST + 512], Asked::Model(Model::Causal)), length);
    let mut damaged = LISTING.to_vec();
    damaged[600] ^= 1;
    assert!(refused(&damaged, Asked::Predicate(Predicate::RVal)).starts_with("refused 4 1: "));
}
