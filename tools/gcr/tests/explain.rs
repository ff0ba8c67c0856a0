//! `gcr explain`, run as people do.

mod support;

use diagram::{explain, Breaks};
use gcr::{Model, Predicate};
use support::folder::Folder;
use support::json::Json;
use support::{bytes, gcr, piped, shipped, to_closed_pipe, to_full_device};

/// What the library tells of a record that ships, under this name. Its words are held by tests of their own.
fn told(name: &str, record: &str, breaks: Breaks) -> String {
    explain(name, &bytes(record), &breaks).expect("it passes").text
}

const STALE: &str = "records/stale-read.gcr";
const LONG_WAY: &str = "records/long-way.gcr";

fn monotonic_reads() -> Breaks {
    Breaks::Of(vec![Predicate::MonotonicReads])
}

#[test]
fn a_break_is_told_and_the_status_says_so() {
    let due = told(STALE, STALE, monotonic_reads());
    assert!(due.starts_with("records/stale-read.gcr: predicate 5 MonotonicReads is broken at events 0 and 2\n"));
    for predicate in ["MonotonicReads", "monotonic reads", "5"] {
        assert_eq!(gcr(&["explain", "--predicate", predicate, STALE]).ends(1).text(), due);
        assert_eq!(gcr(&["explain", STALE, &format!("--predicate={predicate}")]).ends(1).text(), due);
    }
}

#[test]
fn without_an_option_the_causal_model_is_told() {
    let due = told(LONG_WAY, LONG_WAY, Breaks::OfModel(Model::Causal));
    assert_eq!(gcr(&["explain", LONG_WAY]).ends(1).text(), due);
    for model in ["causal", "Causal", "4"] {
        assert_eq!(gcr(&["explain", "--model", model, LONG_WAY]).ends(1).text(), due);
    }
}

/// The text of so many reads of one site. Each sees the one before it alone, and the last returned before event 0 started.
fn ring(count: usize) -> String {
    let row = |number: usize| {
        let seen = number.checked_sub(1).map_or("-".to_string(), |before| before.to_string());
        let (start, end) = (if number == 0 { 4 } else { 0 }, if number == count - 1 { 3 } else { 9 });
        format!("0 read 5 none {start} {end} {number} {seen}\n")
    };
    let rows: String = (0..count).map(row).collect();
    format!("edition GCR3\nsites 1\nsite kind object value start return position sees\n{rows}")
}

/// From event 0 back to it, by as many steps as there are events.
#[test]
fn a_ring_through_all_events_is_told_by_all_of_them() {
    for count in [2, 6, 7, 256, 257, 383, 384] {
        let record = piped(&["make"], ring(count).as_bytes()).done().out;
        let told = piped(&["explain", "--predicate", "10"], &record).ends(1);
        assert_eq!(told.lines()[0], "standard input: predicate 10 CausalVisibility is broken at event 0");
        let events: Vec<&str> = told.lines().into_iter().filter_map(|line| line.strip_prefix("  event ")).collect();
        let numbers: Vec<&str> =
            events.iter().filter_map(|event| event.split_once(':')).map(|(number, _)| number).collect();
        let due: Vec<String> = (0..count).chain([0]).map(|number| number.to_string()).collect();
        assert_eq!(numbers, due, "{count} events");
    }
}

#[test]
fn what_is_met_is_said_to_be() {
    let clocks = "records/clocks.gcr";
    let met = |words: &[&str]| gcr(&[&["explain", clocks], words].concat()).ends(0).text().to_string();
    assert_eq!(met(&[]), "records/clocks.gcr: model 4 Causal is met: there is nothing to explain\n");
    assert_eq!(
        met(&["--predicate", "3"]),
        "records/clocks.gcr: predicate 3 RealTime is met: there is nothing to explain\n"
    );
    assert_eq!(met(&["--all"]), "records/clocks.gcr: all predicates are met: there is nothing to explain\n");
}

#[test]
fn all_and_several_are_told_in_turn() {
    let early = "records/early-read.gcr";
    let all = gcr(&["explain", "--all", early]).ends(1);
    let both = gcr(&["explain", "--predicate", "RealTime", "--predicate", "4", early]).ends(1);
    assert_eq!(all.text(), both.text());
    assert_eq!(all.text().matches("\n\n").count(), 1);
    let one_met = gcr(&["explain", "--predicate", "1", "--predicate", "4", early]).ends(1);
    let (met, broken) = one_met.text().split_once("\n\n").expect("there are two");
    assert_eq!(met, "records/early-read.gcr: predicate 1 RVal is met: there is nothing to explain");
    assert!(broken.starts_with("records/early-read.gcr: predicate 4 RealTimeWrites is broken at events 0 and 1\n"));
}

#[test]
fn several_records_are_told_in_turn() {
    let (clocks, early) = ("records/clocks.gcr", "records/early-read.gcr");
    let ran = gcr(&["explain", "--model", "1", LONG_WAY, clocks, early, STALE]).ends(1);
    let of = |record: &str| told(record, record, Breaks::OfModel(Model::Linearizable));
    let summary = "4 records against Linearizable: 1 met, 3 broken, 0 refused, 0 not read\n".to_string();
    assert_eq!(ran.text(), [of(LONG_WAY), of(clocks), of(early), of(STALE), summary].join("\n"));
    let ran = gcr(&["explain", STALE, clocks]).ends(1);
    let summary = "2 records against Causal: 1 met, 1 broken, 0 refused, 0 not read";
    let met = "records/clocks.gcr: model 4 Causal is met: there is nothing to explain";
    assert!(ran.text().ends_with(&format!("\n\n{met}\n\n{summary}\n")), "{}", ran.text());
}

#[test]
fn what_is_no_record_does_not_stop_the_others() {
    let ran = gcr(&["explain", "README.md", STALE, "missing.gcr", "records/clocks.gcr"]);
    let stale = told(STALE, STALE, Breaks::OfModel(Model::Causal));
    assert!(ran.text().starts_with(&format!("{stale}\nrecords/clocks.gcr: ")), "{}", ran.text());
    assert!(ran.text().ends_with("\n\n4 records against Causal: 1 met, 1 broken, 1 refused, 1 not read\n"));
    let messages: Vec<&str> = ran.err.lines().collect();
    assert!(messages[0].starts_with("gcr: README.md: refused 3 0: "), "{}", ran.err);
    assert_eq!(messages[1..], ["gcr: cannot read missing.gcr: No such file or directory (os error 2)"]);
    assert_eq!(ran.status, 3);
    assert_eq!(gcr(&["explain", "README.md", STALE]).status, 2);
}

#[test]
fn a_record_without_events_is_told_as_such() {
    let ran = gcr(&["explain", "records/empty-one-site.gcr"]).done();
    let told = "1 record has no event: records/empty-one-site.gcr";
    assert_eq!(ran.lines().last(), Some(&told));
}

/// One shape for both commands. The object of a model differs: it has each broken predicate.
#[test]
fn json_is_what_judge_writes() {
    for words in [&["--all"][..], &["--predicate", "5"], &["--predicate", "1", "--predicate", "rval"]] {
        let ran = |command: &str| gcr(&[&[command, "--json"], words, &["records", "README.md", "missing"]].concat());
        assert_eq!(ran("explain"), ran("judge"), "{words:?}");
    }
    let ran = gcr(&["explain", "--json", "records/clocks.gcr"]);
    assert_eq!(ran, gcr(&["judge", "--json", "records/clocks.gcr"]));
}

#[test]
fn json_of_a_model_has_each_of_its_broken_predicates() {
    let record = "records/separating-5.gcr";
    let ran = gcr(&["explain", "--json", record]);
    let told = Json::read(ran.lines()[0]);
    let all = Json::read(gcr(&["judge", "--json", "--all", record]).lines()[0]);
    let (verdicts, all) = (told.at("verdicts").list(), all.at("verdicts").list());
    assert_eq!(verdicts.iter().map(|each| each.at("by").at("number").number()).collect::<Vec<_>>(), [10, 11]);
    for verdict in verdicts {
        assert_eq!((verdict.at("kind").text(), verdict.at("number").number()), ("model", 4));
        let alone = &all[verdict.at("by").at("number").number() as usize - 1];
        for key in ["a", "b", "by", "event_a", "event_b", "status", "way"] {
            assert_eq!(verdict.at(key), alone.at(key), "{key}");
        }
    }
}

/// By the library's own answers, of random records of many shapes.
#[test]
fn json_of_a_model_has_those_that_the_library_finds_broken() {
    let folder = Folder::new();
    let records: Vec<Vec<u8>> = (0..200).map(|seed| second::generate::record(seed).bytes).collect();
    let name = |number: usize| folder.at(&format!("{number}.gcr"));
    records.iter().enumerate().for_each(|(number, bytes)| std::fs::write(name(number), bytes).unwrap());
    for &model in Model::ALL {
        let ran = gcr(&["explain", "--json", "--model", model.name(), folder.path().to_str().unwrap()]);
        for (bytes, line) in records.iter().zip(ran.lines()) {
            let Ok(verdicts) = gcr::judge_all(bytes) else { continue };
            let is_broken = |by: &&Predicate| verdicts[by.number() as usize - 1] != gcr::Verdict::Met;
            let due: Vec<&str> = model.predicates().iter().filter(is_broken).map(|by| by.name()).collect();
            let told = Json::read(line);
            let broken = told.at("verdicts").list().iter().filter(|verdict| verdict.at("status").text() == "broken");
            assert_eq!(broken.map(|verdict| verdict.at("by").at("name").text()).collect::<Vec<_>>(), due);
            assert_eq!(told.at("verdicts").list().len(), due.len().max(1));
        }
    }
}

/// The events that JSON tells are those of the lines.
#[test]
fn json_and_lines_tell_the_same_events() {
    let number = |line: &str| line.strip_prefix("  event ")?.split(':').next()?.parse::<u64>().ok();
    for (record, _) in shipped() {
        let lines = gcr(&["explain", "--all", &record]);
        let json = gcr(&["explain", "--all", "--json", &record]);
        let told = Json::read(json.lines()[0]);
        let ways = told.at("verdicts").list().iter().flat_map(|verdict| verdict.at("way").list());
        let events: Vec<u64> = ways.map(|event| event.at("event").number()).collect();
        assert_eq!(events, lines.lines().into_iter().filter_map(number).collect::<Vec<_>>(), "{record}");
        assert_eq!(json.status, lines.status);
    }
}

#[test]
fn a_record_may_come_by_a_pipe() {
    let bytes = bytes("records/stale-read.gcr");
    let told = told("standard input", STALE, monotonic_reads());
    assert_eq!(piped(&["explain", "--predicate", "5"], &bytes).ends(1).text(), told);
    assert_eq!(piped(&["explain", "--predicate", "5", "-"], &bytes).ends(1).text(), told);
}

#[test]
fn what_is_no_record_is_refused() {
    let mut damaged = bytes("records/long-way.gcr");
    damaged[600] ^= 1;
    let folder = Folder::new();
    let path = folder.file("damaged.gcr", damaged);
    let sentence = "refused 4 1: The block at this place does not have the check sums of its bytes.";
    gcr(&["explain", &path]).ended(2, &format!("{path}: {sentence}"));
    let sentence = "refused 3 0: The record's length is not a multiple of 512 from 512 to 33,280 bytes.";
    piped(&["explain", "--all"], &[]).ended(2, &format!("standard input: {sentence}"));
    piped(&["explain"], &[0; 20_000]).ended(2, &format!("standard input: {sentence}"));
}

#[test]
fn a_file_that_cannot_be_read_is_named() {
    let said = "No such file or directory (os error 2)";
    gcr(&["explain", "missing.gcr"]).ended(3, &format!("cannot read missing.gcr: {said}"));
}

#[test]
fn words_that_are_not_understood_get_the_nearest_right_one() {
    let unclear = |words: &[&str], message: &str| {
        gcr(&[&["explain"], words].concat()).ended(4, &format!("{message} (gcr explain --help tells more)"));
    };
    let unknown = |words: &[&str], message: &str| {
        gcr(&[&["explain"], words].concat()).ended(4, &format!("{message} (gcr list tells them all)"));
    };
    unknown(&["--predicate", "MonotonicRead"], "there is no predicate MonotonicRead; the nearest is MonotonicReads");
    unknown(&["--predicate", "14"], "there is no predicate 14");
    unknown(&["--model", "casual"], "there is no model casual; the nearest is Causal");
    unknown(&["--model", "0"], "there is no model 0");
    unclear(&["--predcate", "5"], "there is no option --predcate; the nearest is --predicate");
    unclear(&["--predicate"], "--predicate takes 1 word");
    unclear(&["--all", "--model", "4"], "--model and --all do not go together");
    unclear(&["--model", "4", "--model", "5"], "--model is given twice");
    unclear(&["-", "-"], "standard input can be read once");
}

#[test]
fn output_that_cannot_be_written_is_noticed() {
    let stale = "records/stale-read.gcr";
    let full = to_full_device(&["explain", "--all", stale]);
    full.ended(3, "cannot write to standard output: No space left on device (os error 28)");
    to_closed_pipe(&["explain", "--all", stale]).ends(3);
}
