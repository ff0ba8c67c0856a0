//! What docs/COMMAND.md shows of both commands is what they write.

use crate::support::folder::Folder;
use crate::support::{gcr, shell_in};
use gcr::{judge_all, Edition, Record};
use std::fs;

const PAGE: &str = include_str!("../../../../docs/COMMAND.md");

const LOG: &str = "\
sites,2
site,kind,object,value,start,return,position,sees
0,write,5,100,0,1,0,
1,read,5,100,2,3,1,0
1,read,5,,4,,2,0..1
";

#[track_caller]
fn is_shown(text: &str) {
    let indented: String = text.lines().map(|line| format!("{}\n", format!("    {line}").trim_end())).collect();
    assert!(PAGE.contains(&indented), "the page does not show\n{indented}");
}

#[test]
fn records_as_text_and_csv() {
    let record = "records/never-returned.gcr";
    is_shown(gcr(&["show", record]).done().text());
    is_shown(gcr(&["show", "--csv", record]).done().text());
}

#[test]
fn a_log_and_what_is_wrong_with_others() {
    let folder = Folder::new();
    is_shown(LOG);
    let made = folder.at("log.gcr");
    gcr(&["make", &folder.file("log.csv", LOG), "-o", &made]).done();
    let shown = gcr(&["show", &made]).done();
    let rows = shown.lines();
    assert!(rows.len() == 9 && rows[8].contains("pending"), "{rows:?}");
    for (from, to) in [
        ("read,5,100", "raed,5,100"),
        ("read,5,100", "read,300,100"),
        ("3,1,0", "3,1"),
        ("100,2,3", "100,5,3"),
        ("1,read,5,100", "2,read,5,100"),
        ("3,1,0", "3,0,0"),
        ("3,1,0", "3,1,7"),
        ("3,1,0", "3,1,2"),
    ] {
        is_shown(&refusal(&folder, "log.csv", &LOG.replacen(from, to, 1)));
    }
}

#[test]
fn more_events_than_there_may_be() {
    let folder = Folder::new();
    let columns = LOG.lines().nth(1).expect("it has columns");
    for (head, count) in [("edition,GCR2\n", 300), ("", 400)] {
        let rows: String = (0..count).map(|number| format!("0,write,5,100,0,1,{number},\n")).collect();
        is_shown(&refusal(&folder, "log.csv", &format!("{head}sites,2\n{columns}\n{rows}")));
    }
}

/// The page's commands lead from a rehearsal to a record of the older edition that says the same.
#[test]
fn a_record_goes_to_another_edition() {
    let (_, section) = PAGE.split_once("### In another edition\n").expect("the page has it");
    let (section, _) = section.split_once("\n## ").expect("more comes after it");
    let commands: Vec<&str> = section.lines().filter_map(|line| line.strip_prefix("    ")).collect();
    let folder = Folder::new();
    folder.file("day.txt", "sites 2\nopen 5 300\nput 0 5 350\nget 1 5\nclose\nget 1 5\n");
    let ran = shell_in(folder.path(), &commands.join(" && "));
    assert_eq!((ran.status, ran.err.as_str()), (0, ""));
    let [left, made] = ["day.gcr", "day-2.gcr"].map(|name| fs::read(folder.at(name)).expect("it is there"));
    assert_eq!(judge_all(&left), judge_all(&made));
    let mut said = Record::read(&left).expect("it passes");
    assert_eq!(said.edition, Edition::Gcr3);
    said.edition = Edition::Gcr2;
    assert_eq!(said.encode(), Ok(made));
}

#[test]
fn what_is_told_of_a_text_that_was_cut() {
    let folder = Folder::new();
    let shown = gcr(&["show", "--csv", "records/never-returned.gcr"]).done();
    let text = shown.text();
    let last = text.lines().last().expect("a row");
    is_shown(&refusal(&folder, "day.csv", text.strip_suffix(&format!("{last}\n")).expect("it ends so")));
    is_shown(&refusal(&folder, "day.csv", text.trim_end()));
    is_shown(&refusal(&folder, "day.csv", &format!("{}\n", text.strip_suffix("]\n").expect("it ends so"))));
}

/// What is told of a file of this name.
fn refusal(folder: &Folder, name: &str, text: &str) -> String {
    let path = folder.file(name, text);
    let ran = gcr(&["make", &path]);
    assert_eq!(ran.status, 2, "{text}");
    ran.err.replace(&path, name)
}
