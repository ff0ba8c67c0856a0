//! Logs with columns that a record has not.

use crate::support::folder::Folder;
use crate::support::{gcr, piped};

const OPTION: &str = "--ignore-other-columns";

const LOG: &str = "\
sites,2
site,kind,object,value,start,return,position,sees
0,write,5,100,0,1,0,
1,read,5,100,2,3,1,0
";

/// The same with columns of the site's own.
const OWN: &str = "\
sites,2,,,,,,,,
call,site,kind,object,value,\"start,\",start,return,position,sees,\u{1b}who
c7a1,0,write,5,100,site,0,1,0,,ana
,1,read,5,100,0..x,2,3,1,0,
";

fn made(words: &[&str], text: &str) -> (i32, String, Vec<u8>) {
    let ran = piped(words, text.as_bytes());
    (ran.status, ran.err, ran.out)
}

#[test]
fn they_are_passed_over_and_told() {
    let record = piped(&["make", "--csv"], LOG.as_bytes()).done().out;
    let told = "gcr: standard input: 3 columns are passed over: call, start,, \u{fffd}who\n";
    assert_eq!(made(&["make", "--csv", OPTION], OWN), (0, told.to_string(), record.clone()));
    let one = LOG.replace("site,kind", "stat,site,kind").replace("\n0,", "\n?,0,").replace("\n1,", "\n?,1,");
    let told = "gcr: standard input: 1 column is passed over: stat\n";
    assert_eq!(made(&["make", "--csv", OPTION], &one), (0, told.to_string(), record.clone()));
    assert_eq!(made(&["make", "--csv", OPTION], LOG), (0, String::new(), record));
}

#[test]
fn the_first_may_have_words_of_the_header() {
    let own =
        LOG.replace("site,kind", "events,site,kind").replace("\n0,", "\nopening,0,").replace("\n1,", "\nsites,1,");
    let record = piped(&["make", "--csv"], LOG.as_bytes()).done().out;
    let told = "gcr: standard input: 1 column is passed over: events\n";
    assert_eq!(made(&["make", "--csv", OPTION], &own), (0, told.to_string(), record));
}

#[test]
fn in_text_they_are_words() {
    let text = "sites 2\ncall site kind who object value start return position sees
c7a1 0 write ana 5 100 0 1 0 -\n- 1 read bo 5 100 2 3 1 0..0 0\n";
    let record = piped(&["make", "--csv"], LOG.as_bytes()).done().out;
    let told = "gcr: standard input: 2 columns are passed over: call, who\n";
    assert_eq!(made(&["make", OPTION], text), (0, told.to_string(), record));
    let last = "standard input: line 2, column 50: in text the column sees is the last";
    piped(&["make", OPTION], text.replace("call ", "").replace("sees", "sees call").as_bytes()).ended(2, last);
}

#[test]
fn without_the_option_the_first_is_refused() {
    let columns = "the columns are event, site, kind, object, value, state, start, return, position, sees";
    let what = format!("line 2, column 1: there is no column call; {columns}; {OPTION} passes over others");
    piped(&["make", "--csv"], OWN.as_bytes()).ended(2, &format!("standard input: {what}"));
}

#[test]
fn what_a_record_has_is_still_asked_for() {
    let folder = Folder::new();
    for (from, to, what) in [
        ("return", "retrun", "line 2, column 1: the column return is missing in this row"),
        ("sees", "site", "line 2, column 46: the column site is named twice"),
        ("0,write", "0,1,write", "line 3, column 3: there is no kind 1; the kinds are read, write"),
        ("1,0\n", "1\n", "line 4, column 19: the row ends before its sees, which may be -"),
        ("sites", "stes", "line 1, column 1: there is no header word or column stes; the nearest is sites; the header \
            words are edition, sites, clocks, opening, events; the columns are event, site, kind, object, value, state, \
            start, return, position, sees"),
    ] {
        let log = folder.file("log.csv", LOG.replacen(from, to, 1));
        gcr(&["make", OPTION, &log, "-o", &folder.at("log.gcr")]).ended(2, &format!("{log}: {what}"));
    }
    let own = OWN.replace(",sees,\u{1b}who", ",sees,own").replace(",0,\n", ",0\n");
    let what = "line 4, column 27: the row ends before its own";
    piped(&["make", "--csv", OPTION], own.as_bytes()).ended(2, &format!("standard input: {what}"));
}

#[test]
fn of_many_the_first_are_named() {
    let names: Vec<String> = (0..1_000).map(|number| format!("own{number}")).collect();
    let text = format!("sites,1\nsite,kind,object,value,start,return,position,sees,{}\n", names.join(","));
    let (status, told, record) = made(&["make", "--csv", OPTION], &text);
    let nine = "own0, own1, own2, own3, own4, own5, own6, own7, own8";
    let due = format!("gcr: standard input: 1000 columns are passed over: {nine} and 991 more\n");
    assert_eq!((status, told, record.len()), (0, due, 512));
}
