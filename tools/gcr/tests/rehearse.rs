//! `gcr rehearse` as people run it: on files and pipes, with good scripts and bad ones.

mod support;

use std::fs;
use support::folder::Folder;
use support::{bytes, gcr, piped, shell_in, to_closed_pipe, to_full_device, Ran};

const PAGE: &str = include_str!("../../../docs/COMMAND.md");

/// A script on standard input.
fn rehearsed(script: &str) -> Ran {
    piped(&["rehearse"], script.as_bytes())
}

/// The remarks beside the calls.
fn told(ran: &Ran) -> Vec<&str> {
    ran.text().lines().filter_map(|line| line.split_once("  # ")).map(|(_, told)| told).collect()
}

#[test]
fn each_call_has_its_answer_beside_it() {
    let ran = rehearsed("sites 2\nopen 5 300\nput 0 5 100\nget 1 5\nclose\nget 1 5\nget 1 6 # by hand\n");
    let due = "sites 2
open 5 300

put 0 5 100  # event 0
get 1 5      # event 1, found 300
close        # 1 copy delivered
get 1 5      # event 2, found 100
get 1 6      # event 3, found none
# 5 calls: 5 done, 0 refused; 4 events; 0 copies outstanding; a record of 1024 bytes
";
    assert_eq!((ran.status, ran.text(), ran.err.as_str()), (0, due, ""));
    assert_eq!(rehearsed(due).text(), due);
}

#[test]
fn a_last_line_that_may_be_cut_is_told() {
    let folder = Folder::new();
    let whole = "sites 2\nput 0 5 350\n";
    let path = folder.file("day.txt", &whole[..whole.len() - 3]);
    let ran = gcr(&["rehearse", &path]);
    let told = "the last line has no newline at its end, and may be cut";
    assert_eq!((ran.status, ran.err.as_str()), (0, format!("gcr: {path}: line 2, column 10: {told}\n").as_str()));
    assert_eq!(ran.out, rehearsed("sites 2\nput 0 5 3\n").out);
    for end in ["", "# put 0 5 3", "  ", "\n# put 0 5 350"] {
        assert_eq!(rehearsed(&format!("{whole}{end}")).err, "", "{end:?}");
    }
    assert_eq!(rehearsed(&whole.replace('\n', "\r")), rehearsed(whole));
    let refused = "standard input: line 2, column 8: VALUE is missing: put SITE OBJECT VALUE";
    rehearsed("sites 2\nput 0 5").ended(2, refused);
    assert_eq!(piped(&["rehearse", "--bytes"], &bytes("records/closing.script")).err, "");
}

/// What the page shows under this name.
fn block(name: &str) -> &'static str {
    let (_, rest) = PAGE.split_once(&format!("```text {name}\n")).expect(name);
    rest.split_once("```").expect("an end").0
}

#[test]
fn the_page_shows_what_is_written() {
    let folder = Folder::new();
    folder.file("day.txt", block("day.txt").as_bytes());
    let ran = shell_in(folder.path(), "gcr rehearse day.txt -o day.gcr");
    assert_eq!((ran.status, ran.text(), ran.err.as_str()), (2, block("day.txt answered"), ""));
    assert_eq!(folder.names(), ["day.gcr", "day.txt"]);
    for (right, wrong) in [("deliver", "delivr"), ("sites 2", "sites 9")] {
        folder.file("day.txt", block("day.txt").replacen(right, wrong, 1).as_bytes());
        let ran = shell_in(folder.path(), "gcr rehearse day.txt");
        assert!(ran.status == 2 && PAGE.contains(&format!("\n    {}", ran.err)), "{}", ran.err);
    }
    let (cut, _) = block("day.txt").split_once("00     # event 3").expect("the last line");
    folder.file("day.txt", cut);
    let ran = shell_in(folder.path(), "gcr rehearse day.txt");
    assert!(!ran.err.is_empty() && PAGE.contains(&format!("\n    {}", ran.err)), "{}", ran.err);
}

#[test]
fn the_texts_that_ship_are_the_scripts_that_ship() {
    for name in ["listing", "closing", "opening", "harvest-day"] {
        let (text, script) = (format!("records/{name}.script.txt"), format!("records/{name}.script"));
        assert_eq!(gcr(&["rehearse", &text, "--bytes-to", "-"]).done().out, bytes(&script), "{name}");
        let (of_text, of_bytes) = (gcr(&["rehearse", &text]), gcr(&["rehearse", "--bytes", &script]));
        assert_eq!(of_text.text(), of_bytes.text(), "{name}");
    }
}

#[test]
fn the_records_are_those_that_ship() {
    let folder = Folder::new();
    for name in ["listing", "opening", "harvest-day"] {
        let due = bytes(&format!("records/{name}.gcr"));
        let (text, record) = (format!("records/{name}.script.txt"), folder.at("out.gcr"));
        let ran = gcr(&["rehearse", &text, "-o", &record]).done();
        assert!(
            ran.text().ends_with(&format!("a record of {} bytes, written to {record}\n", due.len())),
            "{}",
            ran.text()
        );
        assert_eq!(fs::read(&record).unwrap(), due, "{name}");
        let script = bytes(&format!("records/{name}.script"));
        assert_eq!(piped(&["rehearse", "--bytes", "-o", "-", "-"], &script).out, due, "{name}");
    }
    assert_eq!(folder.names(), ["out.gcr"]);
}

#[test]
fn the_listings_answers_are_told() {
    let ran = gcr(&["rehearse", "records/listing.script.txt"]);
    let due = ["event 0", "event 1", "delivered", "event 2, found 200", "event 3, found 100", "delivered"];
    assert_eq!(told(&ran)[..6], due);
    assert_eq!(told(&ran)[6..], ["event 4, found 200"]);
}

#[test]
fn refused_calls_are_told_by_number_and_sentence_and_the_script_goes_on() {
    let folder = Folder::new();
    let record = folder.at("day.gcr");
    let script = "sites 3\nput 0 5 1\ndeliver 0 1\nput 1 5 2\ncall 09 00 00 00 00 00 00 00\nget 3 5\nput 0 32 1\n\
                  deliver 2 0\ndeliver 0 1\ndeliver 1 2\nclose\n";
    let ran = piped(&["rehearse", "-o", &record], script.as_bytes());
    let due = [
        "refused 31: The call is not well formed.",
        "refused 32: The call's site is not below the number of sites.",
        "refused 33: The object is above 31, or the delivered event is not a put already done.",
        "refused 33: The object is above 31, or the delivered event is not a put already done.",
        "refused 35: The site already knows the delivered put.",
        "refused 36: The site lacks a put that the delivered one needs.",
        "3 copies delivered",
    ];
    assert_eq!((ran.status, ran.err.as_str()), (2, ""));
    assert_eq!(told(&ran)[3..], due);
    let total = "# 10 calls: 4 done, 6 refused; 2 events; 0 copies outstanding; a record of 1024 bytes, written to ";
    assert_eq!(ran.text().lines().last(), Some(format!("{total}{record}").as_str()));
    let done = "sites 3\nput 0 5 1\ndeliver 0 1\nput 1 5 2\nclose\n";
    assert_eq!(fs::read(&record).unwrap(), piped(&["rehearse", "-o", "-"], done.as_bytes()).out);
}

#[test]
fn the_385th_event_is_refused_by_34() {
    let ran = rehearsed(&format!("sites 1\n{}close\n", "get 0 5\n".repeat(385)));
    assert_eq!(ran.status, 2);
    assert_eq!(
        told(&ran)[383..],
        ["event 383, found none", "refused 34: The store has 384 events already.", "0 copies delivered"]
    );
    assert!(ran
        .text()
        .contains("\n# 386 calls: 385 done, 1 refused; 384 events; 0 copies outstanding; a record of 33280 bytes\n"));
}

/// What it leaves is judged, shown and drawn as any other, and all of its events are there.
#[test]
fn a_full_store_leaves_a_record_for_every_command() {
    let folder = Folder::new();
    let (record, picture) = (folder.at("day.gcr"), folder.at("day.svg"));
    let puts: String = (0..384).map(|number| format!("put {} 5 {number}\n", number % 8)).collect();
    piped(&["rehearse", "-o", &record], format!("sites 8\n{puts}close\n").as_bytes()).done();
    assert_eq!(gcr(&["judge", "--quiet", &record]).done().lines().len(), 1);
    let shown = gcr(&["show", &record]).done();
    assert_eq!(shown.lines()[..4], ["edition GCR3", "sites 8", "clocks 0", "events 384"]);
    assert!(piped(&["make"], &shown.out).done().out == fs::read(&record).unwrap());
    let drawn = gcr(&["draw", &record, "-o", &picture]).done();
    assert!(drawn.text().contains(": 384 events at 8 sites; "), "{}", drawn.text());
}

/// What is written then is what stood there before.
fn refused_whole(words: &[&str], script: &[u8], due: &str) {
    let folder = Folder::new();
    let (record, bytes) = (folder.file("day.gcr", b"GCR as it was"), folder.at("day.script"));
    let ran = piped(&[&["rehearse", "-o", &record, "--bytes-to", &bytes], words].concat(), script);
    ran.ended(2, due);
    assert_eq!(fs::read(&record).unwrap(), b"GCR as it was");
    assert_eq!(folder.names(), ["day.gcr"]);
}

#[test]
fn a_script_is_refused_as_a_whole_by_20_21_and_40() {
    let few = "standard input: refused 20: The number of sites is not 1 to 8.";
    let long = "standard input: refused 21: The script's length is not a multiple of 8 of at most 32,768 bytes, which \
        are 4,096 calls.";
    let opened = "standard input: refused 40: The openings are not 132 bytes, or hold a value under a clear bit.";
    refused_whole(&[], b"sites 9\nclose\n", few);
    refused_whole(&[], b"sites 0\n", few);
    refused_whole(&[], format!("sites 1\n{}", "close\n".repeat(4_097)).as_bytes(), long);
    refused_whole(&["--bytes"], b"", few);
    refused_whole(&["--bytes"], &[&[1; 1][..], &[0; 132], &[4; 7]].concat(), long);
    refused_whole(&["--bytes"], &[&[1; 1][..], &[0; 132], &[0; 32_776]].concat(), long);
    refused_whole(&["--bytes"], &[&[1; 1][..], &[0; 132], &[0; 1_000_000]].concat(), long);
    refused_whole(&["--bytes"], &[1, 0, 0, 0, 0, 7], opened);
}

#[test]
fn as_many_calls_as_there_may_be_are_done() {
    let ran = rehearsed(&format!("sites 8\n{}", "close\n".repeat(4_096)));
    assert_eq!((ran.status, told(&ran).len()), (0, 4_096));
    assert!(ran
        .text()
        .ends_with("# 4096 calls: 4096 done, 0 refused; 0 events; 0 copies outstanding; a record of 512 bytes\n"));
}

#[test]
fn bad_text_is_refused_with_its_line_and_column() {
    refused_whole(&[], b"", "standard input: line 1, column 1: sites N is missing");
    refused_whole(
        &[],
        b"sites 2\nput 0 5\n",
        "standard input: line 2, column 8: VALUE is missing: put SITE OBJECT VALUE",
    );
    refused_whole(
        &[],
        b"sites 2\n  clsoe\n",
        "standard input: line 2, column 3: there is no word clsoe; the nearest is close; the words are sites, \
         open, put, get, deliver, close, call",
    );
    refused_whole(
        &[],
        b"sites 2\n# \xff\n",
        "standard input: line 2, column 3: the byte ff is no text in UTF-8 (--bytes reads the paper's form)",
    );
    refused_whole(&[], &vec![b'\n'; 4_000_001], "standard input: the text is longer than 4,000,000 bytes");
    refused_whole(&[], &vec![b'\n'; 4_000_000], "standard input: line 4000001, column 1: sites N is missing");
    let folder = Folder::new();
    let script = folder.file("day.txt", b"sites 2\nopen 5 1\nopen 5 2\n");
    refused_whole(&[&script], b"", &format!("{script}: line 3, column 6: object 5 has an opening already"));
}

#[test]
fn bytes_go_to_text_and_back() {
    let script = [&[2, 33, 0, 0, 0, 7][..], &[0; 127], &[1, 0, 5, 0, 0, 1, 0, 0], &[4, 0, 0, 1, 0, 0, 0, 0]].concat();
    let ran = piped(&["rehearse", "--bytes"], &script);
    let due = "sites 2\nopen 0 7\nopen 5 0\n\nput 0 5 256                   # event 0\n\
               call 04 00 00 01 00 00 00 00  # refused 31: The call is not well formed.\n";
    assert_eq!(ran.status, 2);
    assert!(ran.text().starts_with(due), "{}", ran.text());
    let back = piped(&["rehearse", "--bytes-to", "-"], &ran.out);
    assert_eq!((back.status, back.err.as_str()), (2, "gcr: standard input: 1 of 2 calls refused\n"));
    assert_eq!(back.out, script);
}

#[test]
fn the_record_and_the_bytes_go_to_their_files() {
    let folder = Folder::new();
    let (record, bytes) = (folder.at("day.gcr"), folder.at("day.script"));
    let script = b"sites 2\nput 1 5 200\n";
    let ran = piped(&["rehearse", "-o", &record, "--bytes-to", &bytes], script);
    assert_eq!((ran.status, told(&ran)), (0, vec!["event 0"]));
    assert!(ran.text().contains("; 1 event; 1 copy outstanding; "));
    assert_eq!(piped(&["rehearse", "-o", "-"], script).out, fs::read(&record).unwrap());
    assert_eq!(gcr(&["rehearse", "--bytes", &bytes, "-o", "-"]).out, fs::read(&record).unwrap());
    let one = piped(&["rehearse", "-o", "-", "--bytes-to", &bytes], script);
    assert_eq!((one.status, one.out), (0, fs::read(&record).unwrap()));
}

#[test]
fn words_that_are_not_understood_end_with_4() {
    let told = [
        (&["-o", "-", "--bytes-to", "-"][..], "-o and --bytes-to name the same file"),
        (&["-o", "a", "--bytes-to", "a"], "-o and --bytes-to name the same file"),
        (&["-o", "a", "--bytes-to", "./a"], "-o and --bytes-to name the same file"),
        (&["-o", "docs/../a", "--bytes-to", "a"], "-o and --bytes-to name the same file"),
        (&["-o", "-", "--bytes-to", "/dev/stdout"], "-o and --bytes-to name the same file"),
        (&["-o"], "-o takes 1 word"),
        (&["-o", "a", "-o", "b"], "-o is given twice"),
        (&["--byte"], "there is no option --byte; the nearest is --bytes"),
        (&["one", "two"], "it takes one file"),
    ];
    for (words, due) in told {
        let ran = piped(&[&["rehearse"], words].concat(), b"sites 1\n");
        ran.ended(4, &format!("{due} (gcr rehearse --help tells more)"));
    }
}

#[test]
fn the_help_tells_the_words_and_its_example_runs() {
    let help = gcr(&["rehearse", "--help"]).done();
    for word in ["sites N", "open OBJECT VALUE", "put SITE OBJECT VALUE", "deliver EVENT SITE", "close", "--bytes-to"] {
        assert!(help.text().contains(word), "{word}");
    }
    let example = help.text().lines().last().unwrap().split('\'').nth(1).unwrap().replace("\\n", "\n");
    assert_eq!(told(&rehearsed(&example)), ["event 0", "1 copy delivered", "event 1, found 100"]);
}

#[test]
fn files_that_cannot_be_read_or_written_end_with_3() {
    let folder = Folder::new();
    let script = folder.file("day.txt", b"sites 1\nclose\n");
    let (missing, nowhere) = (folder.at("none.txt"), folder.at("none/day.gcr"));
    let failed = |words: &[&str], begins: &str| {
        let ran = gcr(&[&["rehearse"], words].concat());
        assert_eq!((ran.status, ran.text()), (3, ""), "{words:?}");
        assert!(ran.err.starts_with(&format!("gcr: {begins}: ")), "{}", ran.err);
    };
    failed(&[&missing], &format!("cannot read {missing}"));
    failed(&[&folder.at("")], &format!("cannot read {}", folder.at("")));
    failed(&[&script, "-o", &nowhere], &format!("cannot write {nowhere}"));
    failed(&[&script, "--bytes-to", &nowhere], &format!("cannot write {nowhere}"));
    failed(&[&script, "-o", "/dev/full"], "cannot write /dev/full");
    assert_eq!(folder.names(), ["day.txt"]);
}

#[test]
fn output_that_is_lost_ends_with_3() {
    let script = "records/listing.script.txt";
    for words in [&["rehearse", script][..], &["rehearse", script, "-o", "-"], &["rehearse", "--help"]] {
        to_full_device(words).ended(3, "cannot write to standard output: No space left on device (os error 28)");
        to_closed_pipe(words).ends(3);
    }
}
