//! `gcr judge` as people run it.

mod support;

use gcr::{judge_all, judge_model, judge_predicate, Model, Predicate, Verdict};
use std::fs;
use std::io::{Read, Write};
use std::os::unix::ffi::OsStrExt;
use std::process::Command;
use support::folder::Folder;
use support::json::Json;
use support::{gcr, piped, root, shell, to_closed_pipe, to_full_device, Ran};

/// Random records of many shapes, some damaged.
fn random(count: u64) -> Vec<Vec<u8>> {
    (0..count).map(|seed| second::generate::record(seed).bytes).collect()
}

/// With files in the order of these records.
fn folder_of(records: &[Vec<u8>]) -> Folder {
    let folder = Folder::new();
    for (number, bytes) in records.iter().enumerate() {
        folder.file(&format!("{number:04}.gcr"), bytes);
    }
    folder
}

/// `0 and 2`, or one event's number.
fn pair(a: u16, b: u16) -> String {
    if a == b {
        format!("event {a}")
    } else {
        format!("events {a} and {b}")
    }
}

/// What the line of a record should say of a model, by the library.
fn line_of_model(name: &str, model: Model, record: &[u8]) -> String {
    let told = match judge_model(model, record) {
        Err(refusal) => refusal.to_string(),
        Ok(Verdict::Met) if gcr::count(record) == 0 => "met, without any event".to_string(),
        Ok(Verdict::Met) => "met".to_string(),
        Ok(Verdict::Broken { a, b }) => {
            let verdicts = judge_all(record).unwrap();
            let is_broken = |by: &&Predicate| verdicts[by.number() as usize - 1] != Verdict::Met;
            let by = model.predicates().iter().find(is_broken).unwrap();
            assert_eq!(verdicts[by.number() as usize - 1], Verdict::Broken { a, b });
            format!("broken: {model} by {by} at {}", pair(a, b))
        }
    };
    format!("{name}: {told}")
}

#[test]
fn a_record_gets_a_line_and_all_of_them_a_summary() {
    let ran = gcr(&["judge", "records/clocks.gcr", "records/stale-read.gcr", "records/separating-5.gcr"]);
    let lines = [
        "records/clocks.gcr: met",
        "records/stale-read.gcr: broken: Causal by CausalVisibility at events 0 and 2",
        "records/separating-5.gcr: broken: Causal by CausalVisibility at event 0",
        "3 records against Causal: 1 met, 2 broken, 0 refused, 0 not read",
    ];
    assert_eq!((ran.lines().as_slice(), ran.err.as_str(), ran.status), (lines.as_slice(), "", 1));
}

#[test]
fn a_record_without_events_says_so() {
    let ran = gcr(&["judge", "records/empty-one-site.gcr"]);
    assert_eq!(ran.lines()[0], "records/empty-one-site.gcr: met, without any event");
}

#[test]
fn what_is_asked_twice_is_judged_once() {
    let ran = gcr(&["judge", "--model", "1", "--model", "linearizable", "records/stale-read.gcr"]);
    assert_eq!(ran.lines()[0], "records/stale-read.gcr: broken: Linearizable by SingleOrder at events 0 and 2");
    let ran = gcr(&["judge", "--all", "--model", "4", "records/clocks.gcr"]);
    assert!(ran.lines()[1].starts_with("1 record against 1 model and 13 predicates: 1 met"), "{}", ran.lines()[1]);
}

#[test]
fn a_record_may_come_by_a_pipe() {
    for words in [&["judge"][..], &["judge", "-"]] {
        let ran = piped(words, include_bytes!("../../../records/clocks.gcr"));
        assert_eq!(ran.lines()[0], "standard input: met");
        assert_eq!(ran.status, 0);
    }
    assert_eq!(piped(&["judge", "-", "-"], b"").status, 4);
}

#[test]
fn the_highest_status_counts() {
    let (met, broken, refused, missing) = ("records/clocks.gcr", "records/stale-read.gcr", "README.md", "no-such.gcr");
    for (files, status) in [
        (&[met][..], 0),
        (&[met, met], 0),
        (&[broken, met], 1),
        (&[refused, broken, met], 2),
        (&[refused, met], 2),
        (&[missing, refused, broken], 3),
        (&[met, missing], 3),
    ] {
        let words: Vec<&str> = ["judge"].iter().chain(files).copied().collect();
        assert_eq!(gcr(&words).status, status, "{files:?}");
    }
}

#[test]
fn a_refusal_has_its_sentence_and_a_missing_file_its_reason() {
    let ran = gcr(&["judge", "README.md", "no-such.gcr"]);
    let sentence = "The record's length is not a multiple of 512 from 512 to 33,280 bytes.";
    assert_eq!(ran.lines()[0], format!("README.md: refused 3 0: {sentence}"));
    assert!(ran.lines()[1].starts_with("no-such.gcr: not read: "), "{}", ran.lines()[1]);
}

#[test]
fn every_line_is_what_the_library_finds() {
    let records = random(400);
    let folder = folder_of(&records);
    for &model in Model::ALL {
        let words = ["judge".as_ref(), "--model".as_ref(), model.name().as_ref(), folder.path().as_os_str()];
        let ran = gcr(&words);
        for (number, (bytes, line)) in records.iter().zip(ran.lines()).enumerate() {
            let name = folder.path().join(format!("{number:04}.gcr")).display().to_string();
            assert_eq!(line, line_of_model(&name, model, bytes));
        }
        let summary = format!("{} records against {model}: ", records.len());
        assert!(ran.lines()[records.len()].starts_with(&summary), "{}", ran.lines()[records.len()]);
    }
}

/// Asked for alone a predicate has a call of its own.
#[test]
fn a_predicate_alone_is_told_as_the_library_finds_it() {
    let records = random(200);
    let folder = folder_of(&records);
    for &predicate in Predicate::ALL {
        let words = ["judge".as_ref(), "--predicate".as_ref(), predicate.name().as_ref(), folder.path().as_os_str()];
        for (bytes, line) in records.iter().zip(gcr(&words).lines()) {
            let due = match judge_predicate(predicate, bytes) {
                Err(refusal) => refusal.to_string(),
                Ok(Verdict::Met) => "met".to_string(),
                Ok(Verdict::Broken { a, b }) => format!("broken: {predicate} at {}", pair(a, b)),
            };
            assert_eq!(line.split_once(": ").unwrap().1.replace(", without any event", ""), due);
        }
    }
}

#[test]
fn all_predicates_are_told_by_name() {
    let ran = gcr(&["judge", "--all", "records/listing.gcr"]);
    let broken = "SingleOrder at events 0 and 1, RealTime at events 2 and 3, PerObjectSingleOrder at events 0 and 1";
    assert_eq!(ran.lines()[0], format!("records/listing.gcr: broken: {broken}"));
    let ran = gcr(&["judge", "--predicate", "5", "--predicate=monotonic-writes", "records/stale-read.gcr"]);
    assert_eq!(ran.lines()[0], "records/stale-read.gcr: broken: MonotonicReads at events 0 and 2");
    assert_eq!(
        ran.lines()[1],
        "1 record against MonotonicReads, MonotonicWrites: 0 met, 1 broken, 0 refused, 0 not read"
    );
}

/// The object of a record has all keys, and says what the library finds.
fn is_right(object: &Json, record: &[u8]) {
    assert_eq!(object.keys(), ["error", "events", "record", "refusal", "status", "verdicts"]);
    assert_eq!(object.at("error"), &Json::Null);
    match judge_all(record) {
        Err(refusal) => {
            assert_eq!(object.at("status").text(), "refused");
            assert_eq!(object.at("events"), &Json::Null);
            assert!(object.at("verdicts").list().is_empty());
            let told = object.at("refusal");
            assert_eq!(told.at("number").number(), refusal.number.into());
            assert_eq!(told.at("place").number(), refusal.place.into());
            assert_eq!(told.at("sentence").text(), refusal.sentence());
        }
        Ok(verdicts) => {
            let is_met = verdicts.iter().all(|&verdict| verdict == Verdict::Met);
            assert_eq!(object.at("status").text(), if is_met { "met" } else { "broken" });
            assert_eq!(object.at("refusal"), &Json::Null);
            assert_eq!(object.at("events").number(), gcr::Record::read(record).unwrap().count() as u64);
            assert_eq!(object.at("verdicts").list().len(), 13);
            for ((told, verdict), predicate) in object.at("verdicts").list().iter().zip(verdicts).zip(Predicate::ALL) {
                is_verdict(told, verdict, *predicate, record);
            }
        }
    }
}

fn is_verdict(told: &Json, verdict: Verdict, predicate: Predicate, record: &[u8]) {
    let keys = ["a", "b", "by", "event_a", "event_b", "kind", "name", "number", "status", "way"];
    assert_eq!(told.keys(), keys);
    assert_eq!(told.at("kind").text(), "predicate");
    assert_eq!(told.at("number").number(), predicate.number().into());
    assert_eq!(told.at("name").text(), predicate.name());
    match verdict {
        Verdict::Met => {
            assert_eq!(told.at("status").text(), "met");
            assert_eq!(["a", "b", "by", "event_a", "event_b"].map(|key| told.at(key)), [&Json::Null; 5]);
            assert!(told.at("way").list().is_empty());
        }
        Verdict::Broken { a, b } => {
            assert_eq!(told.at("status").text(), "broken");
            assert_eq!((told.at("a").number(), told.at("b").number()), (a.into(), b.into()));
            assert_eq!(told.at("by").at("name").text(), predicate.name());
            assert_eq!(told.at("by").at("number").number(), predicate.number().into());
            is_way(told, (a, b), predicate, record);
        }
    }
}

/// From a on, as the library explains the break. A read that is both events, since its object's opening is due, stands
/// there once.
fn is_way(told: &Json, (a, b): (u16, u16), predicate: Predicate, record: &[u8]) {
    let said = gcr::Record::read(record).unwrap();
    let mut way = gcr::explain(predicate, record).unwrap();
    if !(predicate == Predicate::RVal && a == b) {
        way.insert(0, a);
    }
    let due = |&number: &u16| is_event(number, said.event(number).unwrap());
    assert_eq!(told.at("way").list(), way.iter().map(due).collect::<Vec<_>>());
    assert_eq!((told.at("event_a"), told.at("event_b")), (&due(&a), &due(&b)));
}

/// What is to be told of an event.
fn is_event(number: u16, event: &gcr::Event) -> Json {
    let number_or_null = |number: Option<u64>| number.map_or(Json::Null, Json::Number);
    let kind = if event.kind == gcr::Kind::Write { "write" } else { "read" };
    let all = [
        ("event", Json::Number(number.into())),
        ("site", Json::Number(event.site.into())),
        ("object", Json::Number(event.object.into())),
        ("kind", Json::Text(kind.to_string())),
        ("value", number_or_null(event.value.map(u64::from))),
        ("start", Json::Number(event.start)),
        ("return", number_or_null(event.end)),
    ];
    Json::Object(all.map(|(key, value)| (key.to_string(), value)).into())
}

#[test]
fn json_is_an_object_for_each_record() {
    let records = random(300);
    let folder = folder_of(&records);
    let ran = gcr(&["judge".as_ref(), "--json".as_ref(), "--all".as_ref(), folder.path().as_os_str()]);
    assert_eq!(ran.lines().len(), records.len());
    for (line, bytes) in ran.lines().iter().zip(&records) {
        is_right(&Json::read(line), bytes);
    }
}

#[test]
fn json_names_the_model_and_what_it_is_broken_by() {
    let ran = gcr(&["judge", "--json", "records/stale-read.gcr", "no-such.gcr"]);
    let told = Json::read(ran.lines()[0]);
    assert_eq!(told.at("record").text(), "records/stale-read.gcr");
    let verdict = &told.at("verdicts").list()[0];
    assert_eq!((verdict.at("kind").text(), verdict.at("number").number()), ("model", 4));
    assert_eq!(verdict.at("by").at("number").number(), 10);
    let told = Json::read(ran.lines()[1]);
    assert_eq!(told.at("status").text(), "unread");
    assert!(!told.at("error").text().is_empty());
    assert_eq!(ran.status, 3);
}

/// Cells of a row, without quotes.
fn cells(row: &str) -> Vec<String> {
    let (mut cells, mut cell, mut is_quoted) = (Vec::new(), String::new(), false);
    for letter in row.chars() {
        match letter {
            '"' => is_quoted = !is_quoted,
            ',' if !is_quoted => cells.push(std::mem::take(&mut cell)),
            other => cell.push(other),
        }
    }
    cells.push(cell);
    cells
}

#[test]
fn csv_has_a_row_for_each_verdict() {
    let ran = gcr(&["judge", "--csv", "--all", "records/listing.gcr", "README.md"]);
    let rows: Vec<Vec<String>> = ran.lines().iter().map(|row| cells(row)).collect();
    assert_eq!(rows.len(), 1 + 13 + 1);
    assert!(rows.iter().all(|row| row.len() == rows[0].len()), "{rows:?}");
    for (row, (predicate, verdict)) in rows[1..14].iter().zip(Predicate::ALL.iter().zip(listing())) {
        let (number, by) = (predicate.number().to_string(), predicate.name());
        assert_eq!(row[..6], ["records/listing.gcr", "broken", "5", "predicate", &number, by]);
        let told = match verdict {
            Verdict::Met => ["met".to_string(), String::new(), String::new(), String::new(), String::new()],
            Verdict::Broken { a, b } => ["broken".to_string(), number, by.to_string(), a.to_string(), b.to_string()],
        };
        assert_eq!(row[6..11], told);
    }
    assert_eq!(rows[14][11..13], ["3", "0"]);
}

fn listing() -> [Verdict; 13] {
    judge_all(include_bytes!("../../../records/listing.gcr")).unwrap()
}

#[test]
fn quiet_leaves_out_what_is_met() {
    for quiet in ["--quiet", "-q"] {
        let ran = gcr(&["judge", quiet, "records/clocks.gcr", "records/stale-value.gcr"]);
        assert_eq!(ran.lines().len(), 2);
        assert!(ran.lines()[0].starts_with("records/stale-value.gcr: broken: Causal by RVal at events 2 and 1"));
    }
}

/// The site whose event is not as it has to be: of a wrong value the read's, and else the pair's second event's.
fn at_fault(line: &str) -> Vec<(String, u64)> {
    let told = Json::read(line);
    let broken = told.at("verdicts").list().iter().filter(|verdict| verdict.at("status").text() == "broken");
    let site = |verdict: &Json| {
        let event = if verdict.at("by").at("number").number() == 1 { "event_a" } else { "event_b" };
        (told.at("record").text().to_string(), verdict.at(event).at("site").number())
    };
    broken.map(site).collect()
}

/// So the analyst's page tells to find it.
#[test]
fn json_has_the_site_at_fault() {
    let ran = gcr(&["judge", "--json", "records/clocks.gcr", "records/stale-value.gcr", "records/busy-day.gcr"]);
    let sites: Vec<_> = ran.lines().iter().flat_map(|line| at_fault(line)).collect();
    let due = [("records/stale-value.gcr", 0), ("records/busy-day.gcr", 4)];
    assert_eq!(sites, due.map(|(record, site)| (record.to_string(), site)));
}

#[test]
fn json_and_csv_have_the_summary_on_standard_error() {
    for form in ["--json", "--csv"] {
        let ran = gcr(&["judge", form, "--quiet", "records/clocks.gcr", "records/stale-read.gcr"]);
        assert!(!ran.text().contains("2 records"));
        let told = "2 records against Causal: 1 met, 1 broken, 0 refused, 0 not read\n";
        assert_eq!((ran.err.as_str(), ran.status), (told, 1));
    }
}

/// What a terminal shows of a run, with `^[` for escapes.
fn on_terminal(words: &[&str], no_color: &str) -> String {
    let mut terminal = fs::File::options().read(true).write(true).open("/dev/ptmx").expect("there are terminals");
    let mut command = Command::new(env!("CARGO_BIN_EXE_gcr"));
    command.args(words).current_dir(root()).env("NO_COLOR", no_color).stdout(terminal.try_clone().unwrap());
    Ran::of(&mut command, b"");
    terminal.write_all(b"that is all\n").unwrap();
    let mut shown = Vec::new();
    while !shown.ends_with(b"that is all\r\n") {
        let mut next = [0; 1024];
        let length = terminal.read(&mut next).unwrap();
        shown.extend_from_slice(&next[..length]);
    }
    String::from_utf8(shown).expect("it is text")
}

#[test]
fn a_terminal_has_colors_unless_they_are_not_wanted() {
    let words = ["judge", "records/clocks.gcr"];
    let always = [&words[..], &["--color", "always"]].concat();
    assert!(on_terminal(&words, "").starts_with("records/clocks.gcr: ^[[32mmet^[[m\r\n"));
    assert!(on_terminal(&words, "1").starts_with("records/clocks.gcr: met\r\n"));
    assert!(on_terminal(&always, "1").starts_with("records/clocks.gcr: ^[[32mmet^[[m\r\n"));
    for form in ["--json", "--csv", "--color=never"] {
        assert!(!on_terminal(&[&words[..], &[form]].concat(), "").contains("^["), "{form}");
    }
}

#[test]
fn colors_are_there_where_they_are_asked_for() {
    let words = ["judge", "records/clocks.gcr", "records/stale-read.gcr", "README.md", "no-such.gcr"];
    let plain = gcr(&words);
    assert!(!plain.out.contains(&0x1b));
    let colored = gcr(&[&words[..], &["--color", "always"]].concat());
    let due =
        ["\x1b[32mmet\x1b[m", "\x1b[31mbroken\x1b[m: ", "\x1b[33mrefused 3 0\x1b[m: ", "\x1b[35mnot read\x1b[m: "];
    for (line, due) in colored.lines().iter().zip(due) {
        assert!(line.contains(due), "{line:?}");
    }
    let uncolored = ["32", "31", "33", "35", ""]
        .iter()
        .fold(colored.text().to_string(), |text, color| text.replace(&format!("\x1b[{color}m"), ""));
    assert_eq!((uncolored.as_str(), colored.status), (plain.text(), plain.status));
    for other in [&["--color", "never"][..], &["--color=auto"]] {
        assert_eq!(gcr(&[&words[..], other].concat()), plain);
    }
    for form in ["--json", "--csv"] {
        assert!(!gcr(&[&words[..], &["--color", "always", form]].concat()).out.contains(&0x1b));
    }
    let message = "--color is auto, always or never, and red is none of them (gcr judge --help tells more)";
    gcr(&["judge", "--color", "red"]).ended(4, message);
}

#[test]
fn names_cannot_break_lines() {
    let folder = Folder::new();
    let record = include_bytes!("../../../records/clocks.gcr");
    let odd = folder.path().join(std::ffi::OsStr::from_bytes(b"a\nb: met\x1b[2J\xff.gcr"));
    fs::write(&odd, record).unwrap();
    folder.file("quote\",.gcr", record);
    let odd = folder.path().join(std::ffi::OsStr::from_bytes(b"a\nb: met\x1b[2J\xff.txt"));
    fs::write(&odd, record).unwrap();
    let ran = gcr(&["judge".as_ref(), folder.path().as_os_str()]);
    assert_eq!(ran.lines().len(), 2 + 3); // of which the summary's name the same files again
    assert!(!ran.out.contains(&0x1b));
    let ran = gcr(&["judge".as_ref(), "--json".as_ref(), folder.path().as_os_str()]);
    assert!(Json::read(ran.lines()[1]).at("record").text().ends_with("quote\",.gcr"));
}

#[test]
fn output_that_is_lost_is_told() {
    let full = "cannot write to standard output: No space left on device (os error 28)";
    to_full_device(&["judge", "records"]).ended(3, full);
    to_closed_pipe(&["judge", "records"]).ends(3);
}

#[test]
fn unknown_words_get_the_nearest_right_one() {
    for (words, told) in [
        (&["jugde"][..], "there is no command jugde; the nearest is judge"),
        (&["judge", "--modle", "4"], "there is no option --modle; the nearest is --model"),
        (&["judge", "--model", "casual", "records"], "there is no model casual; the nearest is Causal"),
        (&["judge", "--predicate", "rvall", "records"], "there is no predicate rvall; the nearest is RVal"),
        (&["judge", "--model", "14", "records"], "there is no model 14"),
        (&["judge", "--json", "--csv", "records"], "--json and --csv do not go together"),
        (&["judge", "--model"], "--model takes 1 word"),
    ] {
        let ran = gcr(words);
        assert!(ran.err.starts_with(&format!("gcr: {told}")), "{}", ran.err);
        assert_eq!((ran.text(), ran.status), ("", 4));
    }
}

/// Records of 384 events, of many shapes.
fn longest(count: u64) -> Vec<Vec<u8>> {
    use second::generate::{random::Random, shapes};
    (0..count).map(|seed| shapes::of_any_edition(&mut Random::new(seed), gcr::EVENTS_MOST).to_bytes()).collect()
}

/// A season of the longest records, 333 MB in all, under a limit of address space that is a third of that. Links stand
/// for most of them.
#[test]
fn a_season_goes_through_under_a_limit_of_memory() {
    let folder = Folder::new();
    let records = longest(100);
    let mut due = [0; 3];
    for number in 0..10_000 {
        let path = folder.at(&format!("{number:05}.gcr"));
        let which = number % records.len();
        match number < records.len() {
            true => fs::write(path, &records[which]).unwrap(),
            false => fs::hard_link(folder.at(&format!("{which:05}.gcr")), path).unwrap(),
        }
        match judge_model(Model::Causal, &records[which]) {
            Ok(Verdict::Met) => due[0] += 1,
            Ok(Verdict::Broken { .. }) => due[1] += 1,
            Err(_) => due[2] += 1,
        }
    }
    let ran = shell(&format!("ulimit -v 95000; exec gcr judge --quiet '{}'", folder.path().display()));
    let [met, broken, refused] = due;
    let told = format!("10000 records against Causal: {met} met, {broken} broken, {refused} refused, 0 not read");
    assert_eq!(ran.lines()[broken + refused], told, "{}", ran.err);
    let doubles = (met + broken) / 100 * 99;
    let told = format!("{doubles} records have the bytes of another: ");
    assert!(ran.lines()[broken + refused + 1].starts_with(&told), "{told}");
    assert_eq!(ran.lines().len(), broken + refused + 2);
}

#[test]
fn too_little_memory_for_threads_is_no_panic() {
    let ran = shell("ulimit -v 8000; exec gcr judge records/clocks.gcr records/stale-read.gcr");
    assert_eq!(ran.status, 1, "{}", ran.err);
}

#[test]
fn an_output_that_cannot_be_written_at_all_is_told() {
    let ran = shell("gcr judge records/clocks.gcr 1</dev/null");
    assert_eq!(
        (ran.err.as_str(), ran.status),
        ("gcr: cannot write to standard output: Bad file descriptor (os error 9)\n", 3)
    );
}
