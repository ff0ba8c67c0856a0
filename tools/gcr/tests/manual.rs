//! `gcr manual`: a page of roff that tells what every help does.

mod support;

use support::helps::helps;
use support::{gcr, shell};

fn page() -> String {
    gcr(&["manual"]).done().text().to_string()
}

/// A page as it reads, without what steers its look.
fn plain(page: &str) -> String {
    let text = page.replace("\\fB", "").replace("\\fI", "").replace("\\fR", "").replace("\\-", "-");
    let lines = text.replace("\\(aq", "'").replace("\\e", "\\");
    lines.lines().map(|line| format!("{}\n", line.trim_start_matches("\\&"))).collect()
}

#[test]
fn every_command_and_option_has_its_place() {
    let plain = plain(&page());
    for help in helps() {
        let (_, part) = plain.split_once(&format!("\n.SS {}\n", help.name)).unwrap_or_else(|| panic!("{}", help.name));
        let part = part.split("\n.S").next().expect("it ends");
        for line in help.option_lines() {
            let (label, sentence) = line.trim().split_once("  ").expect("a label and a sentence");
            assert!(part.contains(&format!(".TP\n{label}\n{}", sentence.trim())), "{} {label}", help.name);
        }
        assert!(part.contains(help.example()), "{}", help.name);
    }
}

#[test]
fn it_has_the_statuses_and_the_version() {
    let page = page();
    let version = gcr(&["version"]).done().text().trim().to_string();
    assert!(page.starts_with(&format!(".TH GCR 1 \"\" \"{version}\" ")), "{page}");
    let (_, statuses) = page.split_once(".SH EXIT STATUS\n").expect("statuses");
    let told: Vec<&str> = statuses.split(".TP\n").skip(1).filter_map(|part| part.lines().next()).collect();
    assert_eq!(told, ["0", "1", "2", "3", "4"]);
}

/// In one wording.
#[test]
fn the_page_of_the_command_has_the_same_statuses() {
    let command = include_str!("../../../docs/COMMAND.md").replace('`', "");
    let (_, table) = command.split_once("\n## Exit status\n").expect("a part of it");
    let rows: Vec<&str> = table.lines().filter(|line| line.starts_with("| ")).skip(1).take(5).collect();
    let manual = plain(&page());
    let (_, statuses) = manual.split_once(".SH EXIT STATUS\n").expect("statuses");
    let told = statuses.split(".TP\n").skip(1).map(|part| format!("| {} |", part.trim().replacen('\n', " | ", 1)));
    assert_eq!(rows, told.collect::<Vec<_>>());
}

/// Lines that begin with a point are requests, and all are known ones.
#[test]
fn it_is_roff() {
    let known = ["TH", "SH", "SS", "PP", "TP", "EX", "EE", "br"];
    let page = page();
    for request in page.lines().filter_map(|line| line.strip_prefix('.')) {
        let name = request.split(' ').next().expect("a name");
        assert!(known.contains(&name), "{request}");
    }
    assert!(!page.lines().any(|line| line.starts_with('\'') || line.is_empty()));
    if shell("command -v groff").status == 0 {
        let ran = shell("gcr manual | groff -man -Tutf8 -ww -z").done();
        assert_eq!(ran.text(), "");
    }
}
