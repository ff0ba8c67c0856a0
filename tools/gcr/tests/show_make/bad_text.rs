//! Text that says no record: each kind with its line and column.

use crate::support::folder::Folder;
use crate::support::{bytes, gcr, piped};

const HEAD: &str = "sites 2\nevent site kind object value state start return position sees\n";
const FIRST: &str = "0 0 write 5 100 returned 0 1 0 -\n";
const COLUMNS: &str = "the columns are event, site, kind, object, value, state, start, return, position, sees";
const OTHERS: &str = "--ignore-other-columns passes over others";
const HEADER: &str = "the header words are edition, sites, clocks, opening, events";

#[track_caller]
fn is_bad(words: &[&str], text: impl AsRef<[u8]>, what: &str) {
    piped(words, text.as_ref()).ended(2, &format!("standard input: {what}"));
}

#[track_caller]
fn row_is_bad(row: &str, what: &str) {
    is_bad(&["make"], format!("{HEAD}{FIRST}{row}\n"), &format!("line 4, {what}"));
}

#[test]
fn the_file_is_named() {
    let folder = Folder::new();
    let path = folder.file("bad.txt", "sites 2\n\nsite kind\n");
    gcr(&["make", &path]).ended(2, &format!("{path}: line 3, column 1: the column object is missing in this row"));
    let path = folder.file("bad.csv", "sites,2\n\n,,\nsite,kin\n");
    let what = format!("there is no column kin; the nearest is kind; {COLUMNS}; {OTHERS}");
    gcr(&["make", &path]).ended(2, &format!("{path}: line 4, column 6: {what}"));
}

#[test]
fn header_rows() {
    for (text, what) in [
        ("", "line 1, column 1: the row of columns is missing: event site kind object value state start return position sees"),
        ("sites 2\n# all\n", "line 3, column 1: the row of columns is missing: event site kind object value state start return position sees"),
        ("sites,2\n", "line 1, column 1: rows with commas are read with --csv"),
        ("sites\n", "line 1, column 1: after sites comes the number of sites"),
        ("opening 5\n", "line 1, column 1: after opening comes the value"),
        ("clocks 5 ms\n", "line 1, column 10: after clocks this is too much"),
        ("sites 2\n sites 2\n", "line 2, column 2: sites is said twice, first in line 1"),
        ("sites 256\n", "line 1, column 7: the number of sites is 256, and may be 1 to 8"),
        ("sites two\n", "line 1, column 7: the number of sites is two, and may be a whole number from 1 to 8"),
        ("clocks 4294967296\n", "line 1, column 8: the difference of clocks is 4294967296, and may be 0 to 4294967295"),
        ("edition GCR4\n", "line 1, column 9: there is no edition GCR4; the nearest is GCR1; the editions are GCR1, GCR2, GCR3"),
        ("opening 32 0\n", "line 1, column 9: the object of an opening is 32, and may be 0 to 31"),
        ("opening 256 0\n", "line 1, column 9: the object of an opening is 256, and may be 0 to 31"),
        ("opening 5 -1\n", "line 1, column 11: the opening is -1, and may be a whole number from 0 to 4294967295"),
        ("opening 5 1\nopening 5 1\n", "line 2, column 9: object 5 has an opening already"),
        ("events\n", "line 1, column 1: after events comes the number of events"),
        ("events many\n", "line 1, column 8: the number of events is many, and may be a whole number from 0 to 18446744073709551615"),
    ] {
        is_bad(&["make"], text, what);
    }
}

#[test]
fn rows_that_are_neither_header_nor_columns() {
    let both = |found: &str| format!("there is no header word or column {found}; {HEADER}; {COLUMNS}");
    is_bad(&["make"], "stes 2\n", &format!("line 1, column 1: {}", both("stes; the nearest is sites")));
    is_bad(&["make"], "sites 2\n\n 0 0 write 5\n", &format!("line 3, column 2: {}", both("0")));
    let missing = format!("line 1, column 1: the header word or column is missing; {HEADER}; {COLUMNS}");
    is_bad(&["make", "--csv"], ",sites,2\n", &missing);
    let column = format!("line 1, column 3: there is no column evnt; the nearest is event; {COLUMNS}; {OTHERS}");
    is_bad(&["make"], "  evnt site\n", &column);
}

#[test]
fn the_row_of_columns() {
    let all = "event site kind object value start return position sees";
    for (text, what) in [
        (
            all.to_string(),
            "line 1, column 1: the number of sites is missing: sites and the number stand in a row before the columns",
        ),
        (format!("sites 2\n{all} state"), "line 2, column 52: in text the column sees is the last"),
        (format!("sites 2\n{}", all.replace("event", "kind")), "line 2, column 11: the column kind is named twice"),
        (format!("sites 2\n{}", all.replace(" sees", "")), "line 2, column 1: the column sees is missing in this row"),
    ] {
        is_bad(&["make"], text, what);
    }
    let unknown = format!("line 2, column 12: there is no column knid; the nearest is kind; {COLUMNS}; {OTHERS}");
    is_bad(&["make"], format!("sites 2\n{}", all.replace("kind", "knid")), &unknown);
    let missing = format!("line 2, column 6: the column is missing; {COLUMNS}; {OTHERS}");
    is_bad(&["make", "--csv"], "sites,2\nsite,,kind\n", &missing);
}

#[test]
fn cells_of_events() {
    let count = "and this row is event 1: rows count from 0";
    row_is_bad("2 0 read 5 100 returned 0 1 1 -", &format!("column 1: the event is 2, {count}"));
    row_is_bad("x 0 read 5 100 returned 0 1 1 -", &format!("column 1: the event is x, {count}"));
    row_is_bad("1 256 read 5 100 returned 0 1 1 -", "column 3: the site is 256, and may be 0 to 255");
    row_is_bad(
        "1 abc read 5 100 returned 0 1 1 -",
        "column 3: the site is abc, and may be a whole number from 0 to 255",
    );
    let kinds = "the kinds are read, write";
    row_is_bad(
        "1  0 wirte 5 9 returned 0 1 1 -",
        &format!("column 6: there is no kind wirte; the nearest is write; {kinds}"),
    );
    row_is_bad("1  0 put 5 9 returned 0 1 1 -", &format!("column 6: there is no kind put; {kinds}"));
    row_is_bad("1 0 read 256 100 returned 0 1 1 -", "column 10: the object is 256, and may be 0 to 255");
    let value = "column 12: the value is 4294967296, and may be 0 to 4294967295, or none";
    row_is_bad("1 0 read 5 4294967296 returned 0 1 1 -", value);
    let value = "column 12: the value is nine, and may be a whole number from 0 to 4294967295, or none";
    row_is_bad("1 0 read 5 nine returned 0 1 1 -", value);
    let state = "column 14: there is no state retuned; the nearest is returned; the states are returned, pending";
    row_is_bad("1 0 read 5 9 retuned 0 1 1 -", state);
    row_is_bad("1 0 read 5 9 pending 0 1 1 -", "column 14: a pending event has no return, and this one has 1");
    row_is_bad("1 0 read 5 9 returned 0 - 1 -", "column 14: a returned event has a return, and this one has none");
    let start = "column 23: the start is 1.5, and may be a whole number from 0 to 18446744073709551615";
    row_is_bad("1 0 read 5 9 returned 1.5 2 1 -", start);
    let time = "column 25: the return is 18446744073709551616, and may be 0 to 18446744073709551615, or -";
    row_is_bad("1 0 read 5 9 returned 0 18446744073709551616 1 -", time);
    row_is_bad("1 0 read 5 9 returned 0 1 65536 -", "column 27: the position is 65536, and may be 0 to 65535");
    let seen = |found: &str| format!("the seen event is {found} 0 to 383");
    let range = "or a range as 0..5";
    row_is_bad("1 0 read 5 9 returned 0 1 1 0  384 3", &format!("column 32: {}, {range}", seen("384, and may be")));
    let seen_dash = seen("-, and may be a whole number from");
    row_is_bad("1 0 read 5 9 returned 0 1 1 0 - 3", &format!("column 31: {seen_dash}, {range}"));
    let seen_x = seen("x, and may be a whole number from");
    row_is_bad("1 0 read 5 9 returned 0 1 1 0..x", &format!("column 32: {seen_x}"));
    row_is_bad("1 0 read 5 9 returned 0 1 1 3 5..4", "column 31: the range 5..4 ends before it begins");
    row_is_bad("1 0 read 5 9 returned 0 1", "column 26: the row ends before its position");
    row_is_bad("1 0 read 5 9 returned 0 1 1 # -", "column 32: the row ends before its sees, which may be -");
    row_is_bad(" sites 2", "column 2: sites is said before the columns, and not after them");
}

/// Of the rows below each has one cell empty; what was swallowed would have made another record of the last of them.
#[test]
fn empty_cells_between_tabs() {
    let between = "between this tab and the next is no cell: an empty one is written -";
    let behind = "behind this tab is no cell: an empty one is written -, and behind the last cell is no tab";
    row_is_bad("1\t0\tread\t5\t\treturned\t0\t1\t1\t-", &format!("column 11: {between}"));
    row_is_bad("1\t0\tread\t5\t9\treturned\t0\t1\t1\t", &format!("column 28: {behind}"));
    row_is_bad("1\t0\tread\t5\t9\treturned\t0\t1\t1\t0\t \t", &format!("column 30: {between}"));
    row_is_bad("1\t0\tread\t5\t9\treturned\t0\t1\t1\t0\t ", &format!("column 30: {behind}"));
    row_is_bad(
        "\t0\tread\t5\t9\treturned\t0\t1\t1\t0 0",
        "column 2: the event is 0, and this row is event 1: rows count from 0",
    );
    let named = HEAD.replace(' ', "\t").replace("\tvalue", "\t \tvalue");
    is_bad(&["make"], named, &format!("line 2, column 23: {between}"));
    let shifted = "sites 1\nsite\tkind\tobject\tvalue\tstart\treturn\tposition\tsees\n0\tread\t5\t\t0\t1\t0\t0 0\n";
    is_bad(&["make"], shifted, &format!("line 3, column 9: {between}"));
}

#[test]
fn cells_of_csv() {
    let head = "sites,2,,\nsite,kind,object,value,start,return,position,sees\n0,write,5,100,0,1,0,\n";
    let value = "and may be a whole number from 0 to 4294967295, or none";
    let seen = "and may be a whole number from 0 to 383, or a range as 0..5";
    let site = "the site is #REF!, and may be a whole number from 0 to 255";
    for (row, what) in [
        ("0,read,5,\"100,0,1,1,0", "column 10: this quote is not closed in its line"),
        ("0,read,5,\"1\" 0,0,1,1,0", "column 14: after a quoted cell comes , or the line's end"),
        ("0,read,5,,0,1,1,0,,7", "column 20: over 7 no column is named"),
        ("0,read,5,\"1\"\"\",0,1,1,0", &format!("column 11: the value is 1\"\", {value}")),
        ("0,,5,,0,1,1,0", "column 3: the kind is missing; the kinds are read, write"),
        ("0,read,5,,,1,1,0", "column 11: the start is missing, and may be 0 to 18446744073709551615"),
        ("0,read,5,1.7E+12,0,1,1,", &format!("column 10: the value is 1.7E+12, {value}")),
        ("0,read,5,,0,1,1,\" 0 1..400\"", "column 24: the seen event is 400, and may be 0 to 383"),
        ("0,read,5,,0,1,1,#REF!", &format!("column 17: the seen event is #REF!, {seen}")),
        ("0,read,5,,0,1,1,0 #N/A", &format!("column 19: the seen event is #N/A, {seen}")),
        ("0,read,5;100,,0,1,1,0", "column 8: the object is 5;100, and may be a whole number from 0 to 255"),
        ("#REF!,read,5,,0,1,1,0", &format!("column 1: {site}")),
        ("\"#REF!\",read,5,,0,1,1,0", &format!("column 2: {site}")),
    ] {
        is_bad(&["make", "--csv"], format!("{head}{row}\r\n"), &format!("line 4, {what}"));
    }
    let fraction = "sites;2\nsite;kind;object;value;start;return;position;sees\n0;write;5;100,00;0;1;0;\n";
    is_bad(&["make", "--csv"], fraction, &format!("line 3, column 11: the value is 100,00, {value}"));
}

#[test]
fn bytes_that_are_no_text() {
    is_bad(
        &["make"],
        b"sites 2\n\xc3\xa4\xff\n",
        "line 2, column 2: the byte ff is no text in UTF-8 (gcr show reads a record)",
    );
    let ran = piped(&["make"], &bytes("records/clocks.gcr"));
    assert_eq!((ran.status, ran.out.len()), (2, 0));
    assert!(ran.err.starts_with("gcr: standard input: line "), "{}", ran.err);
}

#[test]
fn letters_that_would_steer_a_terminal_are_not_shown() {
    let unknown = format!("there is no header word or column \u{fffd}[2J; {HEADER}; {COLUMNS}");
    is_bad(&["make"], "\u{1b}[2J 2\n", &format!("line 1, column 1: {unknown}"));
    let row = "1 0 read 5 \u{1b}[2J returned 0 1 1 -";
    row_is_bad(row, "column 12: the value is \u{fffd}[2J, and may be a whole number from 0 to 4294967295, or none");
}

#[test]
fn more_text_than_any_record_needs() {
    is_bad(&["make"], vec![b'\n'; 4_000_001], "the text is longer than 4,000,000 bytes");
    let columns = "the row of columns is missing: event site kind object value state start return position sees";
    is_bad(&["make"], vec![b'\n'; 4_000_000], &format!("line 4000001, column 1: {columns}"));
}
