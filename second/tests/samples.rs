//! The samples are answered as their names say.

use second::generate::harvest_day;
use second::lines;
use second::samples::samples;
use second::store::Store;
use std::fs;
use std::path::Path;

fn inspected(name: &str) -> String {
    let found = samples().into_iter().find(|sample| sample.name == format!("{name}.gcr"));
    lines::inspect(&found.expect(name).bytes)
}

#[test]
fn names_tell_the_answer() {
    for sample in samples() {
        let line = lines::inspect(&sample.bytes);
        match sample.name.strip_prefix("refused-") {
            Some(rest) => {
                let number = rest.split('-').next().expect("a number");
                assert!(line.starts_with(&format!("refused {number} ")), "{}: {line}", sample.name);
            }
            None if sample.name.ends_with(".gcr") => assert_eq!(line, "passed\n", "{}", sample.name),
            None => assert!(lines::rehearsal(&sample.bytes).starts_with(b"GCR3")),
        }
    }
}

/// Those that both sides have under one name are the same to the byte: what rehearsals leave is of the last edition.
#[test]
fn files_of_the_repository_are_samples() {
    let folder = Path::new(env!("CARGO_MANIFEST_DIR")).join("../records");
    let file = |name: &str| fs::read(folder.join(name)).unwrap_or_else(|error| panic!("records/{name}: {error}"));
    let named = ["empty-one-site.gcr", "stale-read.gcr", "stale-value.gcr", "stale-opening.gcr", "clocks.gcr"];
    let rehearsed = ["listing.gcr", "listing.script", "harvest-day.gcr", "harvest-day.script"];
    let all = samples();
    for name in named.into_iter().chain(rehearsed) {
        let sample = all.iter().find(|sample| sample.name == name).expect(name);
        assert!(file(name) == sample.bytes, "records/{name}");
    }
    assert_eq!(file("harvest-day.script.txt"), harvest_day::text().into_bytes());
    for name in ["listing", "opening", "harvest-day"] {
        assert!(lines::rehearsal(&file(&format!("{name}.script"))) == file(&format!("{name}.gcr")), "{name}");
    }
}

/// Every call of the day is done, of each kind, and copies are left outstanding at its end.
#[test]
fn day_of_harvest_is_lively() {
    let calls = harvest_day::calls();
    let script: Vec<u8> = calls.iter().flat_map(|call| call.to_bytes()).collect();
    let mut store = Store::opened(8, harvest_day::openings());
    let mut answers = vec![7; script.len()];
    store.run(&script, &mut answers);
    assert!(answers.chunks(8).all(|answer| answer[0] == 0));
    assert_eq!((store.events(), store.record().to_bytes().len()), (384, 33_280));
    assert!(store.puts() > 180 && store.outstanding() > 20 && calls.len() < 1_200);
    let broken: Vec<String> =
        judged("harvest-day").lines().filter(|line| line.contains("broken")).map(str::to_string).collect();
    let numbers: Vec<&str> = broken.iter().filter_map(|line| line.split(' ').next()).collect();
    assert_eq!(numbers, ["2", "3", "4", "13"]);
}

#[test]
fn high_places_are_high() {
    assert_eq!(inspected("refused-4-high"), "refused 4 37\n");
    assert_eq!(inspected("refused-7-high"), "refused 7 255\n");
    assert_eq!(inspected("refused-7-tail"), "refused 7 258\n");
    assert_eq!(inspected("refused-8-high"), "refused 8 255\n");
    assert_eq!(inspected("refused-9-high"), "refused 9 254\n");
    assert_eq!(inspected("refused-10-high"), "refused 10 254\n");
    assert_eq!(inspected("refused-4-gcr3-high"), "refused 4 64\n");
    assert_eq!(inspected("refused-7-gcr3-high"), "refused 7 383\n");
    assert_eq!(inspected("refused-7-gcr3-tail-480"), "refused 7 5\n");
    assert_eq!(inspected("refused-7-gcr3-tail-507"), "refused 7 383\n");
    assert_eq!(inspected("refused-8-gcr3-high"), "refused 8 383\n");
    assert_eq!(inspected("refused-8-gcr3-n"), "refused 8 300\n");
    assert_eq!(inspected("refused-9-gcr3-high"), "refused 9 382\n");
    assert_eq!(inspected("refused-9-gcr3-itself"), "refused 9 383\n");
    assert_eq!(inspected("refused-10-gcr3-high"), "refused 10 382\n");
    assert_eq!(inspected("refused-10-gcr3-low"), "refused 10 0\n");
}

fn judged(name: &str) -> String {
    let found = samples().into_iter().find(|sample| sample.name == format!("{name}.gcr"));
    lines::verdict(&found.expect(name).bytes)
}

#[test]
fn openings_are_held_or_not() {
    assert!(!judged("openings").contains("broken"));
    assert!(judged("stale-opening").starts_with("1 broken 1 0\n"));
}

/// The read starts 40 ms after the write returned.
#[test]
fn clocks_differ_by_enough_or_not() {
    assert!(!judged("clocks").contains("broken"));
    let early = judged("early-read");
    let broken: Vec<&str> = early.lines().filter(|line| line.contains("broken")).collect();
    assert_eq!(broken, ["3 broken 0 1", "4 broken 0 1"]);
}

#[test]
fn events_in_turn_meet_all() {
    for sample in samples().iter().filter(|sample| sample.name.starts_with("in-turn")) {
        assert!(!lines::verdict(&sample.bytes).contains("broken"), "{}", sample.name);
    }
}
