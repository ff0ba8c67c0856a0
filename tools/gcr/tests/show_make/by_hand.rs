//! Records that people and spreadsheets write.

use crate::support::folder::Folder;
use crate::support::{bytes, gcr, piped};
use std::fs;

const SHOWN: &str = "\
edition GCR2
sites 2
clocks 40
opening 5 300
opening 31 0
events 4

event  site  kind   object  value       state     start  return                position  [sees]
0      0     write  5       100         returned  0      1                     0         []
1      1     write  31      4294967295  pending   2      -                     2         [0]
2      1     read   5       none        returned  3      18446744073709551615  1         [0..1]
3      0     read   255     none        pending   1000   -                     3         [0 2]
";

const SHOWN_IN_CSV: &str = "\
edition,GCR2
sites,2
clocks,40
opening,5,300
opening,31,0
events,4
event,site,kind,object,value,state,start,return,position,[sees]
0,0,write,5,100,returned,0,1,0,[]
1,1,write,31,4294967295,pending,2,,2,[0]
2,1,read,5,,returned,3,18446744073709551615,1,[0..1]
3,0,read,255,,pending,1000,,3,[0 2]
";

/// The record that the texts above say.
fn record() -> Vec<u8> {
    piped(&["make"], SHOWN.as_bytes()).done().out
}

fn makes_the_same(words: &[&str], text: &str) {
    assert!(piped(words, text.as_bytes()).done().out == record(), "another record of\n{text}");
}

#[test]
fn a_record_is_shown_as_text_and_as_csv() {
    assert_eq!(piped(&["show"], &record()).done().text(), SHOWN);
    assert_eq!(piped(&["show", "-"], &record()).done().text(), SHOWN);
    assert_eq!(piped(&["show", "--csv"], &record()).done().text(), SHOWN_IN_CSV);
    makes_the_same(&["make", "-"], SHOWN);
    makes_the_same(&["make", "--csv"], SHOWN_IN_CSV);
}

#[test]
fn a_record_of_the_first_edition_has_no_clocks() {
    let text = "edition GCR1\nsites 2\nevents 3\n
event  site  kind   object  value  state     start  return  position  [sees]
0      0     write  0       7      returned  0      1       0         []
1      1     read   0       7      returned  2      3       1         [0]
2      1     read   0       none   returned  4      5       2         [1]
";
    assert_eq!(gcr(&["show", "records/stale-read.gcr"]).done().text(), text);
    assert!(piped(&["make"], text.as_bytes()).done().out == bytes("records/stale-read.gcr"));
}

#[test]
fn files_are_read_and_written_by_their_names() {
    let folder = Folder::new();
    let (text, csv, record) = (folder.at("day.txt"), folder.at("day.CSV"), folder.at("day.gcr"));
    let shipped = "records/opening.gcr";
    gcr(&["show", shipped, "-o", &text]).done();
    gcr(&["show", "-o", &csv, shipped]).done();
    assert_eq!(fs::read_to_string(&text).unwrap(), gcr(&["show", shipped]).done().text());
    assert_eq!(fs::read_to_string(&csv).unwrap(), gcr(&["show", "--csv", shipped]).done().text());
    for made in [&text, &csv] {
        gcr(&["make", made, "-o", &record]).done();
        assert!(fs::read(&record).unwrap() == bytes(shipped), "{made}");
        assert!(gcr(&["make", made]).done().out == bytes(shipped), "{made}");
    }
    assert_eq!(folder.names(), ["day.CSV", "day.gcr", "day.txt"]);
}

#[test]
fn what_can_be_told_may_be_left_out() {
    let columns = "# by hand\n\topening 31 0\r\nClocks 40 # ms\nsites 2\n opening 5 300

    position site kind object start return value SEES  # in another order
    0 0 Write 5 0 1 100 -
    2 1 write 31 2 - 4294967295 0   # pending\n
    1 1 read 5 3 18446744073709551615 none 1 0
    3 0 READ 255 1000 none - 2..2 0
";
    makes_the_same(&["make"], columns);
}

#[test]
fn a_spreadsheet_may_pad_quote_and_mark_its_file() {
    let padded = "\u{feff}\"edition\",\"GCR2\",,,,,,,,\r\nsites,2,,,,,,,,\r\nclocks,40,,,,,,,,\r\nopening,5,300,,,,,,,
opening,31,0,,,,,,,\r\n,,,,,,,,,\r\n\"# from the log, by hand\",,,,,,,,,
sees,event,site,kind,object,value,state,start,return,position,,\r
,0,0,write,5,100,returned,0,1,0,,\r
\"0\",1,1,write,31, 4294967295 ,,2,,2\r
\"0 1\",2,1,read,5,none,returned,3,18446744073709551615,1\r
,,,,\r
2 0,3,0,read,255,-,pending,1000,-,3,,,,\r\n";
    makes_the_same(&["make", "--csv"], padded);
    makes_the_same(&["make", "--csv"], &padded.replace(',', ";").replace("log;", "log,"));
}

#[test]
fn lines_may_end_as_any_system_ends_them() {
    for end in ["\r\n", "\r"] {
        makes_the_same(&["make"], &SHOWN.replace('\n', end));
        makes_the_same(&["make", "--csv"], &SHOWN_IN_CSV.replace('\n', end));
    }
    let wrong = SHOWN_IN_CSV.replace("2,1,read", "2,1,raed").replace('\n', "\r");
    let what = "line 10, column 5: there is no kind raed; the nearest is read; the kinds are read, write";
    piped(&["make", "--csv"], wrong.as_bytes()).ended(2, &format!("standard input: {what}"));
}

/// A spreadsheet copies cells with tabs between them, and makes all rows as long as the longest.
#[test]
fn cells_may_be_copied_from_a_spreadsheet() {
    let rows = SHOWN_IN_CSV.replace(",,", ",-,").replace(',', "\t");
    makes_the_same(&["make"], &rows);
    makes_the_same(&["make"], &rows.replace("sites\t2", "sites\t2\t\t\t").replace("events\t4", "\t\t\nevents\t4"));
    makes_the_same(&["make"], &rows.replace("[0 2]", "[0 2]\t\t# the last"));
}

/// What `show` writes of what `make` makes of these rows.
fn shown_again(head: &str, count: usize) -> String {
    let row = |number: usize| format!("0 write 5 1 {number} {number} {number} {}\n", seen(number));
    let rows: String = (0..count).map(row).collect();
    let text = format!("{head}site kind object value start return position sees\n{rows}");
    let made = piped(&["make"], text.as_bytes());
    assert_eq!((made.status, made.err.as_str()), (0, grown(head, count).as_str()));
    piped(&["show"], &made.out).done().text().to_string()
}

/// What `make` says where the events alone make it a later edition.
fn grown(head: &str, count: usize) -> String {
    match head.contains("edition") || count <= 256 {
        true => String::new(),
        false => format!(
            "gcr: standard input: {count} events: the record is of edition GCR3, which readers before version 0.8 refuse\n"
        ),
    }
}

/// All before it.
fn seen(event: usize) -> String {
    match event {
        0 => "-".to_string(),
        _ => format!("0..{}", event - 1),
    }
}

#[test]
fn the_edition_is_the_second_where_none_is_said_and_the_third_where_that_has_no_room() {
    for (count, edition) in [(0, "GCR2"), (6, "GCR2"), (7, "GCR2"), (256, "GCR2"), (257, "GCR3"), (384, "GCR3")] {
        let shown = shown_again("sites 3\n", count);
        let head =
            [format!("edition {edition}"), "sites 3".to_string(), "clocks 0".to_string(), format!("events {count}")];
        assert_eq!(shown.lines().take(4).collect::<Vec<_>>(), head);
    }
}

#[test]
fn a_record_of_the_third_edition_is_shown_as_one_of_the_second() {
    for count in [0, 6, 7, 255, 256] {
        let shown = |edition| shown_again(&format!("edition {edition}\nclocks 40\nopening 31 7\nsites 1\n"), count);
        assert_eq!(shown("GCR3"), shown("GCR2").replace("edition GCR2", "edition GCR3"), "{count} events");
    }
    for count in [257, 383, 384] {
        let shown = shown_again("edition GCR3\nopening 31 7\nsites 1\n", count);
        let last = format!("[0..{}]", count - 2);
        assert!(
            shown.starts_with("edition GCR3\nsites 1\nclocks 0\nopening 31 7\nevents ")
                && shown.trim_end().ends_with(&last)
        );
        let again = piped(&["make"], shown.as_bytes()).done();
        assert_eq!(piped(&["show"], &again.out).done().text(), shown);
    }
}

#[test]
fn help_has_an_example() {
    for name in ["show", "make"] {
        let ran = gcr(&[name, "--help"]).done();
        let help = ran.text();
        assert!(help.starts_with(&format!("gcr {name} ")) && help.contains("\nExample: gcr show "), "{help}");
        assert!(help.lines().count() < 20, "{help}");
    }
}

#[test]
fn words_that_are_not_understood_do_nothing() {
    let twice = gcr(&["make", "a", "b"]);
    twice.ended(4, "it takes one file (gcr make --help tells more)");
    let unknown = gcr(&["show", "--cvs", "a"]);
    unknown.ended(4, "there is no option --cvs; the nearest is --csv (gcr show --help tells more)");
}
