//! Texts that say what no record may: the proved reader's refusals, with the place in the text.

use crate::support::folder::Folder;
use crate::support::{bytes, gcr, piped, Ran};
use std::fs;

const COLUMNS: &str = "site kind object value start return position sees\n";

#[track_caller]
fn is_refused(rows: &str, what: &str) {
    let text = format!("sites 2\n{COLUMNS}0 write 5 1 0 1 0 -\n# a remark\n{rows}");
    piped(&["make"], text.as_bytes()).ended(2, &format!("standard input: {what}"));
}

#[test]
fn an_event_that_no_slot_can_hold() {
    let site = "line 5, column 2: refused 7 1: there is no site 2: the record has sites 0 to 1";
    is_refused(" 2 write 5 1 0 1 1 -\n", site);
    let write = "line 5, column 12: refused 7 1: a write has a value, and this one has none";
    is_refused(" 1 write 5 none 0 1 1 -\n", write);
    is_refused(" 1 write 5 none 0 - 1 -\n", write);
    let read = "line 5, column 11: refused 7 1: a pending read has no value, and this one has 7";
    is_refused(" 1 read 5 7 0 - 1 -\n", read);
    is_refused("1 read 5 1 5 3 1 -\n", "line 5, column 14: refused 7 1: the return 3 is before the start 5");
    let one = "sites 1\nsees".replace("sees", COLUMNS) + "1 write 5 1 0 1 0 -\n";
    let what = "standard input: line 3, column 1: refused 7 0: there is no site 1: the record has site 0 alone";
    piped(&["make"], one.as_bytes()).ended(2, what);
}

#[test]
fn positions() {
    let taken = "line 5, column 17: refused 8 1: the position 0 is event 0's already, in line 3";
    is_refused("1 write 5 1 0 1 0 -\n", taken);
    let beyond = "line 5, column 17: refused 8 1: there is no position 2: the record has positions 0 to 1";
    is_refused("1 write 5 1 0 1 2 -\n", beyond);
}

#[test]
fn visible_sets() {
    is_refused("1 write 5 1 0 1 1 0  0..1\n", "line 5, column 22: refused 9 1: event 1 sees itself");
    for seen in [255, 256, 383] {
        let beyond = format!("line 5, column 19: refused 9 1: there is no event {seen}: the record has events 0 to 1");
        is_refused(&format!("1 write 5 1 0 1 1 {seen}\n"), &beyond);
    }
    let range = "line 5, column 21: refused 9 1: there is no event 7: the record has events 0 to 1";
    is_refused("1 write 5 1 0 1 1 0 0..7\n", range);
    let ring = "line 5, column 21: refused 10 1: event 1 sees itself through event 2";
    is_refused("1 write 5 1 0 1 1 0 2\n\n1 write 5 1 0 1 2 1\n", ring);
}

#[test]
fn visible_sets_in_brackets() {
    let is_refused = |rows: &str, what: &str| {
        let text = format!("sites 2\n{}0 write 5 1 0 1 0 []\n{rows}", COLUMNS.replace("sees", "[sees]"));
        piped(&["make"], text.as_bytes()).ended(2, &format!("standard input: {what}"));
    };
    is_refused("1 write 5 1 0 1 1 [0  0..1]\n", "line 4, column 23: refused 9 1: event 1 sees itself");
    let beyond = "line 4, column 20: refused 9 1: there is no event 383: the record has events 0 to 1";
    is_refused("1 write 5 1 0 1 1 [383]\n", beyond);
    let ring = "line 4, column 22: refused 10 1: event 1 sees itself through event 2";
    is_refused("1 write 5 1 0 1 1 [0 2]\n1 write 5 1 0 1 2 [1]\n", ring);
}

/// Each of so many events sees the next, and the last sees the first.
fn ring(count: usize) -> String {
    let row = |event: usize| format!("0 write 5 1 0 1 {event} {}\n", (event + 1) % count);
    format!("sites 1\n{COLUMNS}{}", (0..count).map(row).collect::<String>())
}

#[test]
fn rings_are_told_by_their_shortest_way() {
    for (count, through) in [
        (3, "events 1 and 2"),
        (7, "events 1, 2, 3, 4, 5 and 6"),
        (8, "events 1, 2, 3, 4, 5, 6 and 1 more"),
        (256, "events 1, 2, 3, 4, 5, 6 and 249 more"),
        (384, "events 1, 2, 3, 4, 5, 6 and 377 more"),
    ] {
        let what = format!("line 3, column 19: refused 10 0: event 0 sees itself through {through}");
        let text = ring(count).replacen("0 write 5 1 0 1 0 1\n", "0 write 5 1 0 1 0 1..1\n", 1);
        piped(&["make"], text.as_bytes()).ended(2, &format!("standard input: {what}"));
    }
}

#[test]
fn a_refused_event_of_csv_has_its_place_too() {
    let text = "sites,1\nsees,position,site,kind,object,value,start,return\n0,0,0,write,1,1,0,1\n";
    let what = "standard input: line 3, column 1: refused 9 0: event 0 sees itself";
    piped(&["make", "--csv"], text.as_bytes()).ended(2, what);
    let text = text.replace("0,0,0,write,1,1,0,1", ",0,0,write,1,,0,1");
    let what = "standard input: line 3, column 14: refused 7 0: a write has a value, and this one has none";
    piped(&["make", "--csv"], text.as_bytes()).ended(2, what);
}

/// So many writes, in order.
fn events(count: usize) -> String {
    let row = |number: usize| format!("0 write 5 1 {number} {number} {} -\n", number % 65_536);
    format!("{COLUMNS}{}", (0..count).map(row).collect::<String>())
}

#[test]
fn heads_that_no_record_has() {
    let is_refused = |header: &str, what: &str| {
        let ran = piped(&["make"], format!("{header}\n{}", events(1)).as_bytes());
        ran.ended(2, &format!("standard input: {what}"));
    };
    is_refused("sites 0", "line 1, column 7: refused 5 0: the number of sites is 0, and may be 1 to 8");
    is_refused("clocks 1\nsites 9", "line 2, column 7: refused 5 0: the number of sites is 9, and may be 1 to 8");
    let clocks = "line 3, column 8: refused 5 0: the difference of clocks is 1, and may be only 0 in edition GCR1";
    is_refused("edition GCR1\nsites 1\nclocks 1", clocks);
    let opening = "line 3, column 9: refused 5 0: edition GCR1 has no openings";
    is_refused("edition GCR1\nsites 1\nopening 7 0\nopening 5 0", opening);
}

/// The record of so many events under this header, or what is told.
fn made(header: &str, count: usize) -> Ran {
    piped(&["make"], format!("{header}sites 8\n{}", events(count)).as_bytes())
}

#[test]
fn more_events_than_a_record_has() {
    assert_eq!(made("edition GCR3\n", 384).done().out.len(), 33_280);
    for count in [385, 400, 66_000] {
        let what = format!("the text has {count} events, and a record has at most 384");
        made("", count).ended(2, &format!("standard input: line 387, column 1: {what}"));
        for edition in ["GCR1", "GCR2", "GCR3"] {
            let said = format!("edition {edition}\n");
            made(&said, count).ended(2, &format!("standard input: line 388, column 1: {what}"));
        }
    }
    let seeing = events(400).replacen("399 399 -", "399 399 398", 1);
    piped(&["make"], format!("sites 1\n{seeing}").as_bytes())
        .ended(2, "standard input: line 387, column 1: the text has 400 events, and a record has at most 384");
}

#[test]
fn more_events_than_its_edition_has() {
    for edition in ["GCR1", "GCR2"] {
        let said = format!("edition {edition}\n");
        assert_eq!(made(&said, 256).done().out.len(), 19_456);
        for count in [257, 300, 384] {
            let has = format!("a record of edition {edition} has at most 256; one of GCR3 has room for them");
            let what = format!("the text has {count} events, and {has}");
            made(&said, count).ended(2, &format!("standard input: line 260, column 1: {what}"));
        }
    }
}

/// A slot of an older edition has no bit for it, and yet it is the reader that refuses.
#[test]
fn an_event_is_seen_that_the_edition_cannot_have() {
    for edition in ["GCR1", "GCR2", "GCR3"] {
        let text = format!("edition {edition}\nsites 1\n{COLUMNS}0 write 5 1 0 1 0 -\n0 write 5 1 2 3 1 0 256..300\n");
        let what = "line 5, column 21: refused 9 1: there is no event 300: the record has events 0 to 1";
        piped(&["make"], text.as_bytes()).ended(2, &format!("standard input: {what}"));
    }
}

#[test]
fn nothing_is_written_then() {
    let folder = Folder::new();
    let text = folder.file("ring.txt", format!("sites 1\n{COLUMNS}0 write 5 1 0 1 0 1\n0 write 5 1 2 3 1 0\n"));
    let there = folder.file("there.gcr", "GCR as it was");
    let ring = "line 3, column 19: refused 10 0: event 0 sees itself through event 1";
    gcr(&["make", &text, "-o", &there]).ended(2, &format!("{text}: {ring}"));
    gcr(&["make", &text, "-o", &folder.at("new.gcr")]).ended(2, &format!("{text}: {ring}"));
    assert_eq!(fs::read_to_string(&there).unwrap(), "GCR as it was");
    assert_eq!(folder.names(), ["ring.txt", "there.gcr"]);
}

#[test]
fn a_record_that_is_refused_is_not_shown() {
    let folder = Folder::new();
    let mut bytes = bytes("records/clocks.gcr");
    bytes[600] ^= 1;
    let damaged = folder.file("damaged.gcr", &bytes);
    let there = folder.file("there.txt", "as it was");
    let what = "refused 4 1: The block at this place does not have the check sums of its bytes.";
    gcr(&["show", &damaged]).ended(2, &format!("{damaged}: {what}"));
    gcr(&["show", &damaged, "-o", &there]).ended(2, &format!("{damaged}: {what}"));
    assert_eq!(fs::read_to_string(&there).unwrap(), "as it was");
    let length = "refused 3 0: The record's length is not a multiple of 512 from 512 to 33,280 bytes.";
    piped(&["show"], &[]).ended(2, &format!("standard input: {length}"));
    piped(&["show"], &vec![0; 1_000_000]).ended(2, &format!("standard input: {length}"));
}
