//! `gcr draw`, run as people do.

mod support;

use diagram::{draw, Asked, Part};
use gcr::{Model, Predicate};
use std::fs;
use support::folder::Folder;
use support::{gcr, piped, shell_in, to_closed_pipe, to_full_device, Ran};

fn bytes(name: &str) -> Vec<u8> {
    support::bytes(&record(name))
}

/// A record that ships, as its name is typed.
fn record(name: &str) -> String {
    format!("records/{name}")
}

/// What the library draws of a record that ships.
fn drawn(name: &str, asked: Asked, part: &Part) -> String {
    draw(name, &bytes(name), asked, part).expect("it is drawn").svg
}

const CAUSAL: Asked = Asked::Model(Model::Causal);

/// The picture that goes to standard output, where these words have it drawn and it is said beside it.
fn picture(words: &[&str]) -> String {
    said(gcr(&[&["draw"], words].concat())).0
}

/// What went to standard output, and the line beside it.
#[track_caller]
fn said(ran: Ran) -> (String, String) {
    let line = ran.err.strip_prefix("gcr: ").and_then(|line| line.strip_suffix('\n')).expect("a line");
    assert!(ran.status == 0 && !line.contains('\n'), "{} {line}", ran.status);
    (ran.text().to_string(), line.to_string())
}

#[test]
fn a_picture_goes_to_standard_output_whatever_the_verdict() {
    let kept = include_str!("../../../docs/pictures/long-way.svg");
    for predicate in ["10", "CausalVisibility", "causal-visibility"] {
        assert!(picture(&["--predicate", predicate, &record("long-way.gcr")]) == kept);
    }
    let sequential = drawn("long-way.gcr", Asked::Model(Model::Sequential), &Part::whole());
    assert!(picture(&[&record("long-way.gcr"), "--model=sequential"]) == sequential);
}

#[test]
fn where_nothing_is_asked_it_is_causal() {
    for name in ["long-way.gcr", "listing.gcr"] {
        assert!(picture(&[&record(name)]) == drawn(name, CAUSAL, &Part::whole()));
        assert!(picture(&["--plain", &record(name)]) == drawn(name, Asked::Nothing, &Part::whole()));
    }
}

#[test]
fn what_was_drawn_is_said_beside_the_picture() {
    let line = |words: &[&str]| said(gcr(&[&["draw"], words].concat())).1;
    let stale = record("stale-read.gcr");
    let broken = "3 events at 2 sites; model 4 Causal is broken by predicate 10 CausalVisibility at events 0 and 2";
    assert_eq!(line(&[&stale]), format!("{stale}: {broken}"));
    assert_eq!(line(&["--predicate", "1", &stale]), format!("{stale}: 3 events at 2 sites; predicate 1 RVal is met"));
    assert_eq!(line(&["--plain", "--site", "1", &stale]), format!("{stale}: 2 of 3 events at 1 of 2 sites"));
    let folder = Folder::new();
    let to = folder.at("picture.svg");
    let ran = gcr(&["draw", &stale, "-o", &to]).done();
    assert_eq!(ran.text(), format!("{to}: {broken}\n"));
    for quiet in ["-q", "--quiet"] {
        assert_eq!(gcr(&["draw", &stale, "-o", &to, quiet]).done().text(), "");
        assert!(gcr(&["draw", &stale, quiet]).done().text() == fs::read_to_string(&to).unwrap());
    }
}

#[test]
fn a_picture_goes_to_the_file_that_is_named() {
    let folder = Folder::new();
    for there in ["", "<svg>", "\u{feff}\n <?xml version=\"1.0\"?>\n<svg/>"] {
        let path = folder.file("picture.svg", there);
        gcr(&["draw", "-o", &path, &record("listing.gcr")]).done();
        assert!(fs::read_to_string(&path).expect("it is there") == drawn("listing.gcr", CAUSAL, &Part::whole()));
        assert_eq!(folder.names(), ["picture.svg"]);
    }
}

/// As where a shell has put two names in place of a star.
#[test]
fn what_is_no_picture_is_not_replaced() {
    let folder = Folder::new();
    folder.file("a.gcr", bytes("listing.gcr"));
    folder.file("b.gcr", bytes("clocks.gcr"));
    let why = "name another file, or remove this one (gcr draw --help tells more)";
    let ran = shell_in(folder.path(), "gcr draw -o *.gcr");
    ran.ended(4, &format!("-o names a.gcr, which is a record, and a picture replaces only pictures: {why}"));
    assert!(fs::read(folder.at("a.gcr")).unwrap() == bytes("listing.gcr"));
    folder.file("notes.svg", "notes");
    let ran = shell_in(folder.path(), "gcr draw -o notes.svg a.gcr");
    ran.ended(4, &format!("-o names notes.svg, which is text, and a picture replaces only pictures: {why}"));
    assert_eq!(fs::read_to_string(folder.at("notes.svg")).unwrap(), "notes");
    assert_eq!(folder.names(), ["a.gcr", "b.gcr", "notes.svg"]);
}

#[test]
fn a_record_by_a_pipe_is_named_so() {
    let due = draw("standard input", &bytes("listing.gcr"), CAUSAL, &Part::whole()).expect("it is drawn");
    for words in [&["draw"][..], &["draw", "-"]] {
        let (picture, line) = said(piped(words, &bytes("listing.gcr")));
        assert!(picture == due.svg);
        assert_eq!(line, format!("standard input: {}", due.told));
    }
}

#[test]
fn a_part_is_drawn_as_it_is_asked_for() {
    let busy_day = record("busy-day.gcr");
    let of = |words: &[&str]| picture(&[&[busy_day.as_str()], words].concat());
    let around = Some((23, 150));
    let due = |asked, part: Part| drawn("busy-day.gcr", asked, &part);
    assert!(of(&["--plain", "--around", "23", "150"]) == due(Asked::Nothing, Part { around, ..Part::whole() }));
    let (sites, objects) = (vec![4, 5], vec![3, 7]);
    let sites_alone = Part { sites: sites.clone(), ..Part::whole() };
    assert!(of(&["--site", "4", "--site", "5"]) == due(CAUSAL, sites_alone));
    let asked = Asked::Predicate(Predicate::MonotonicReads);
    let words =
        ["--predicate", "5", "--object", "3", "--around", "23", "150", "--site", "4", "--site=5", "--object", "7"];
    assert!(of(&words) == due(asked, Part { around, sites, objects }));
    let kept = include_str!("../../../docs/pictures/busy-day.svg");
    assert!(of(&["--predicate", "5", "--around", "23", "150", "--site", "4", "--site", "5"]) == kept);
}

#[test]
fn what_the_record_does_not_have_is_named() {
    let long_way = record("long-way.gcr");
    let fails = |words: &[&str], message: &str| {
        gcr(&[&["draw", &long_way], words].concat()).ended(4, &format!("{long_way}: {message}"));
    };
    fails(&["--around", "0", "300"], "there is no event 300: the record has events 0 to 6");
    fails(&["--site", "3"], "there is no site 3: the record has sites 0 to 2");
    fails(&["--plain", "--object", "9"], "no event is of the part that is asked for, so there is nothing to draw");
    // the events of a break are drawn in any case
    assert!(picture(&[&long_way, "--object", "9", "--predicate", "10"]).contains(": 5 of 7 events at 3 sites"));
}

#[test]
fn words_that_are_not_understood_get_the_nearest_right_one() {
    let unclear = |words: &[&str], message: &str| {
        gcr(&[&["draw"], words].concat()).ended(4, &format!("{message} (gcr draw --help tells more)"));
    };
    unclear(&["--arround", "1", "2"], "there is no option --arround; the nearest is --around");
    unclear(&["--around", "1"], "--around takes 2 words");
    unclear(&["--around", "1", "two"], "--around takes numbers, and two is none");
    unclear(&["--around", "1", "2", "--around", "3", "4"], "--around is given twice");
    unclear(&["--site", "-1"], "--site takes numbers, and -1 is none");
    unclear(&["--object", ""], "--object takes numbers, and  is none");
    unclear(&["--site", "99999999999999999999999"], "--site takes numbers, and 99999999999999999999999 is none");
    let unknown = "there is no predicate Prom; the nearest is Pram (gcr list tells them all)";
    gcr(&["draw", "--predicate", "Prom"]).ended(4, unknown);
    unclear(&["--predicate", "5", "--model", "4"], "--predicate and --model do not go together");
    unclear(&["--plain", "--model", "4"], "--model and --plain do not go together");
    unclear(&["--predicate", "5", "--predicate", "6"], "--predicate is given twice");
    unclear(&["a.gcr", "b.gcr"], "it takes one file");
}

#[test]
fn a_refused_record_leaves_the_file_as_it_was() {
    let folder = Folder::new();
    let path = folder.file("picture.svg", "<svg>");
    let sentence = "refused 3 0: The record's length is not a multiple of 512 from 512 to 33,280 bytes.";
    piped(&["draw", "-o", &path], &[1; 700]).ended(2, &format!("standard input: {sentence}"));
    assert_eq!(fs::read_to_string(&path).expect("it is there"), "<svg>");
}

#[test]
fn what_cannot_be_read_or_written_is_named() {
    let said = "No such file or directory (os error 2)";
    gcr(&["draw", "missing.gcr"]).ended(3, &format!("cannot read missing.gcr: {said}"));
    let written = gcr(&["draw", "-o", "none/picture.svg", &record("listing.gcr")]);
    written.ended(3, &format!("cannot write none/picture.svg: {said}"));
    let full = |run: Ran, to: &str| run.ended(3, &format!("cannot write {to}: No space left on device (os error 28)"));
    full(to_full_device(&["draw", &record("listing.gcr")]), "to standard output");
    full(gcr(&["draw", "-o", "/dev/full", &record("listing.gcr")]), "/dev/full");
    to_closed_pipe(&["draw", &record("busy-day.gcr")]).ends(3);
}

#[test]
fn a_name_of_any_letters_makes_a_picture() {
    let folder = Folder::new();
    for (name, title) in [
        ("a&b <text> \"c\".gcr", "a&amp;b &lt;text&gt; \"c\".gcr"),
        ("a\u{1}b\nc\u{202e}d.gcr", "a\u{fffd}b\u{fffd}c\u{fffd}d.gcr"),
    ] {
        let picture = picture(&[&folder.file(name, bytes("listing.gcr"))]);
        assert!(picture.contains(&format!("<title>{title}: 5 events at 2 sites</title>")));
    }
}
