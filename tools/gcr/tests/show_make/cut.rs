//! Text that was cut on its way: it is refused, or what may be missing is told.

use crate::support::folder::Folder;
use crate::support::{bytes, gcr, piped, shell};

const LOG: &str = "\
sites,2
site,kind,object,value,start,return,position,sees
0,write,5,100,0,1,0,
1,read,5,100,2,3,1,0
";

const UNENDED: &str = "the last line has no newline at its end, and may be cut";

#[track_caller]
fn is_refused(text: &str, what: &str) {
    piped(&["make", "--csv"], text.as_bytes()).ended(2, &format!("standard input: {what}"));
}

#[test]
fn no_cut_of_what_show_writes_is_a_record() {
    for form in FORMS {
        let shown = gcr(&[&["show", "records/stale-read.gcr"], form].concat()).done();
        for cut in 0..shown.out.len() {
            let made = piped(&[&["make"], form].concat(), &shown.out[..cut]);
            assert_eq!((made.status, made.out.len()), (2, 0), "{}", &shown.text()[..cut]);
        }
    }
}

const FORMS: [&[&str]; 2] = [&[], &["--csv"]];

/// What is made of this text is refused, or the record that it was made of.
#[track_caller]
fn is_refused_or(record: &str, form: &[&str], text: &str) {
    let made = piped(&[&["make"], form].concat(), text.as_bytes());
    let is_refused = (made.status, made.out.len()) == (2, 0) && !made.err.is_empty();
    assert!(is_refused || (made.status == 0 && made.out == bytes(record)), "{record} is another after\n{text}");
}

#[test]
fn a_newline_behind_a_cut_makes_no_other_record() {
    let record = "records/never-returned.gcr";
    for form in FORMS {
        let shown = gcr(&[&["show", record], form].concat()).done();
        for cut in 0..shown.out.len() {
            is_refused_or(record, form, &format!("{}\n", &shown.text()[..cut]));
        }
    }
}

#[test]
fn lines_that_are_all_cut_at_a_width_make_no_other_record() {
    for (record, form) in FORMS.iter().flat_map(|form| [("records/clocks.gcr", form), ("records/busy-day.gcr", form)]) {
        let shown = gcr(&[&["show", record], *form].concat()).done();
        let widest = shown.lines().iter().map(|line| line.len()).max().expect("a line");
        for width in 1..=widest {
            let cut = |line: &str| format!("{}\n", &line[..width.min(line.len())]);
            is_refused_or(record, form, &shown.text().lines().map(cut).collect::<String>());
        }
    }
    let ran = shell("gcr show records/busy-day.gcr | cut -c1-132 | gcr make");
    let found = "the cell of [sees] is [2..3 7..8 11..15 19 23..26 36 3…, and may be cut";
    let whole = "a whole one is in brackets, as [0..5 7], and [] where nothing is seen";
    ran.ended(2, &format!("standard input: line 103, column 71: {found}: {whole}"));
}

#[test]
fn under_a_name_in_brackets_cells_are_in_brackets() {
    let log = LOG.replace("sees", "[Sees]").replace("1,0,\n", "1,0,[]\n").replace("3,1,0\n", "3,1,[0]\n");
    let whole = piped(&["make", "--csv"], LOG.as_bytes()).done();
    assert_eq!(piped(&["make", "--csv"], log.as_bytes()).done(), whole);
    for same in ["[ 0..0 0 ]", "\"[0]\"", " [0] "] {
        assert_eq!(piped(&["make", "--csv"], log.replace("[0]", same).as_bytes()).done(), whole, "{same}");
    }
    for (cell, found) in
        [("[0", "[0"), ("0]", "0]"), ("[", "["), ("0", "0"), ("-", "-"), ("", "missing"), ("[]0", "[]0")]
    {
        let may_be = "and may be cut: a whole one is in brackets, as [0..5 7], and [] where nothing is seen";
        let what = format!("line 4, column 20: the cell of [Sees] is {found}, {may_be}");
        is_refused(&log.replace("[0]", cell), &what);
    }
    is_refused(&log.replace(",[0]", ""), "line 4, column 19: the row ends before its [Sees], which may be []");
    is_refused(&log.replace("[0]", "[0..]"), "line 4, column 24: the seen event is missing, and may be 0 to 383");
    is_refused(&log.replace("sites", "sees,[sees],x\nsites"), "line 1, column 6: the column sees is named twice");
}

#[test]
fn under_a_name_without_them_they_may_be() {
    let whole = piped(&["make", "--csv"], LOG.as_bytes()).done();
    for same in ["1,0,[]\n", "1,0,[-]\n"] {
        assert_eq!(piped(&["make", "--csv"], LOG.replace("1,0,\n", same).as_bytes()).done(), whole, "{same}");
    }
    assert_eq!(piped(&["make", "--csv"], LOG.replace("3,1,0\n", "3,1,[0]\n").as_bytes()).done(), whole);
    let what = "the seen event is [0, and may be a whole number from 0 to 383, or a range as 0..5";
    is_refused(&LOG.replace("3,1,0\n", "3,1,[0\n"), &format!("line 4, column 20: {what}"));
}

#[test]
fn the_number_of_events_is_held_to() {
    let counted = |events: &str| format!("events,{events}\n{LOG}");
    let made = piped(&["make", "--csv"], counted("2").as_bytes()).done();
    assert!(made.out == piped(&["make", "--csv"], LOG.as_bytes()).done().out);
    is_refused(&counted("1"), "line 1, column 8: the number of events is 1, and 2 follow, the last in line 5");
    let fewer = "line 1, column 8: the number of events is 3, and 2 follow, the last in line 5: the text may be cut";
    is_refused(&counted("3"), fewer);
    let one = counted("02").replace("1,read,5,100,2,3,1,0\n", "# nothing\n");
    is_refused(&one, "line 1, column 8: the number of events is 2, and 1 follows, in line 4: the text may be cut");
    let none = "sites 2\nevents 1\nsite kind object value start return position sees\n";
    let what = "line 2, column 8: the number of events is 1, and none follows: the text may be cut";
    piped(&["make"], none.as_bytes()).ended(2, &format!("standard input: {what}"));
    is_refused(&format!("events,2\n{}", counted("2")), "line 2, column 1: events is said twice, first in line 1");
}

#[test]
fn a_row_of_csv_has_all_its_cells() {
    for (row, what) in [
        ("1", "column 2: the row ends before its kind"),
        ("1,read,5", "column 9: the row ends before its value, which may be none"),
        ("1,read,5,100,2", "column 15: the row ends before its return, which may be -"),
        ("1,read,5,100,2,", "column 16: the row ends before its position"),
        ("1,read,5,100,2,3,1", "column 19: the row ends before its sees, which may be -"),
    ] {
        is_refused(&LOG.replace("1,read,5,100,2,3,1,0", row), &format!("line 4, {what}"));
    }
    let whole = piped(&["make", "--csv"], LOG.as_bytes()).done();
    for full in ["0,write,5,100,0,1,0,,,", "0,write,5,100,0,1,0,-", "0,write,5,100,0,1,0,none"] {
        let text = LOG.replace("0,write,5,100,0,1,0,", full);
        assert_eq!(piped(&["make", "--csv"], text.as_bytes()).done(), whole, "{full}");
    }
    assert_eq!(piped(&["make", "--csv"], LOG.replace(',', ";").as_bytes()).done(), whole);
    is_refused(
        &LOG.replace(',', ";").replace("2;3;1;0", "2;3;1"),
        "line 4, column 19: the row ends before its sees, which may be -",
    );
}

#[test]
fn a_last_line_without_an_end_is_refused_where_events_are_counted() {
    let counted = format!("events,2\n{LOG}");
    is_refused(counted.trim_end(), &format!("line 5, column 21: {UNENDED}"));
    is_refused(&format!("{counted},,"), &format!("line 6, column 3: {UNENDED}"));
    let none = "events 0\nsites 2\nsite kind object value start return position sees";
    piped(&["make"], none.as_bytes()).ended(2, &format!("standard input: line 3, column 50: {UNENDED}"));
    for end in ["  ", "# end", "\r\n \r\n# end"] {
        piped(&["make", "--csv"], format!("{counted}{end}").as_bytes()).done();
    }
}

#[test]
fn and_else_it_is_told() {
    let folder = Folder::new();
    let (log, to) = (folder.file("log.csv", LOG.trim_end()), folder.at("log.gcr"));
    let ran = gcr(&["make", &log, "-o", &to]);
    let what = format!("gcr: {log}: line 4, column 21: {UNENDED}\n");
    assert_eq!((ran.status, ran.err, ran.out.len()), (0, what, 0));
    assert!(std::fs::read(&to).unwrap() == piped(&["make", "--csv"], LOG.as_bytes()).done().out);
    let text = "sites 2\nsite kind object value start return position sees\n0 write 5 100 0 1 0 -\n# a remark";
    piped(&["make"], text.as_bytes()).done();
}

#[test]
fn rows_that_were_lost_are_missed() {
    let shown = gcr(&["show", "records/clocks.gcr"]).done();
    let less: String = shown.text().lines().take(7).map(|line| format!("{line}\n")).collect();
    let what = "line 4, column 8: the number of events is 3, and 1 follows, in line 7: the text may be cut";
    piped(&["make"], less.as_bytes()).ended(2, &format!("standard input: {what}"));
}
