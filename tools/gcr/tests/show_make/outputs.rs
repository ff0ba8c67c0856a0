//! Output that cannot be written, and files that cannot be read.

use crate::support::folder::Folder;
use crate::support::{bytes, gcr, shell, to_closed_pipe, to_device, to_full_device};
use std::fs::{self, Permissions};
use std::os::unix::fs::{symlink, PermissionsExt};

const RECORD: &str = "records/clocks.gcr";
const TERMINAL: &str = "/dev/ptmx";
const FULL: &str = "No space left on device (os error 28)";

/// `show` with a record, and `make` with its text.
fn both(folder: &Folder) -> [(&'static str, String); 2] {
    let text = folder.at("day.txt");
    gcr(&["show", RECORD, "-o", &text]).done();
    [("show", RECORD.to_string()), ("make", text)]
}

#[test]
fn a_full_device() {
    for (name, file) in both(&Folder::new()) {
        to_full_device(&[name, &file]).ended(3, &format!("cannot write to standard output: {FULL}"));
        gcr(&[name, &file, "-o", "/dev/full"]).ended(3, &format!("cannot write /dev/full: {FULL}"));
    }
}

#[test]
fn a_closed_pipe() {
    for (name, file) in both(&Folder::new()) {
        to_closed_pipe(&[name, &file]).ends(3);
    }
}

#[test]
fn a_file_that_is_not_there_or_is_a_folder() {
    let folder = Folder::new();
    let (missing, there) = (folder.at("missing"), folder.at("."));
    for name in ["show", "make"] {
        gcr(&[name, &missing, "-o", "/dev/null"])
            .ended(3, &format!("cannot read {missing}: No such file or directory (os error 2)"));
        gcr(&[name, &there, "-o", "/dev/null"]).ended(3, &format!("cannot read {there}: Is a directory (os error 21)"));
    }
    for (name, file) in both(&folder) {
        let to = folder.at("no/such/folder");
        gcr(&[name, &file, "-o", &to]).ended(3, &format!("cannot write {to}: No such file or directory (os error 2)"));
    }
}

#[test]
fn bytes_do_not_go_to_a_terminal() {
    let folder = Folder::new();
    let [_, (_, text)] = both(&folder);
    let what = "bytes are not for a terminal: name a file, or redirect them";
    to_device(TERMINAL, &["make", &text]).ended(4, &format!("{what} (gcr make --help tells more)"));
    let to = folder.at("day.gcr");
    to_device(TERMINAL, &["make", &text, "-o", &to]).done();
    assert!(fs::read(&to).unwrap() == bytes(RECORD));
}

#[test]
fn a_file_is_replaced_whole() {
    let folder = Folder::new();
    let there = folder.file("day.txt", "longer than what is written over it ".repeat(1_000));
    gcr(&["show", RECORD, "-o", &there]).done();
    assert_eq!(fs::read_to_string(&there).unwrap(), gcr(&["show", RECORD]).done().text());
    assert_eq!(folder.names(), ["day.txt"]);
}

#[test]
fn a_dash_is_standard_output() {
    assert_eq!(gcr(&["show", RECORD, "-o", "-"]).done(), gcr(&["show", RECORD]).done());
}

#[test]
fn what_is_read_is_not_written_over() {
    let folder = Folder::new();
    let (record, text) = (folder.file("day.gcr", bytes(RECORD)), folder.at("day.txt"));
    gcr(&["show", &record, "-o", &text]).done();
    let script = folder.file("script.txt", "sites 1\nclose\n");
    symlink(&record, folder.at("link")).unwrap();
    for (name, file, to) in [
        ("show", &record, &record),
        ("show", &record, &folder.at("link")),
        ("draw", &record, &folder.at("./day.gcr")),
        ("make", &text, &text),
        ("rehearse", &script, &script),
    ] {
        let what = format!("-o names the file that is read (gcr {name} --help tells more)");
        gcr(&[name, file, "-o", to]).ended(4, &what);
    }
    let what = "--bytes-to names the file that is read (gcr rehearse --help tells more)";
    gcr(&["rehearse", &script, "--bytes-to", &script]).ended(4, what);
    let ran = shell(&format!("gcr show -o {record} < {record}"));
    ran.ended(4, "-o names the file that is read (gcr show --help tells more)");
    assert!(fs::read(&record).unwrap() == bytes(RECORD));
}

#[test]
fn a_long_name_is_a_name() {
    let folder = Folder::new();
    let to = folder.at(&"n".repeat(255));
    gcr(&["show", RECORD, "-o", &to]).done();
    assert_eq!(fs::read_to_string(&to).unwrap(), gcr(&["show", RECORD]).done().text());
}

#[test]
fn a_link_stays_one_and_a_file_keeps_its_mode() {
    let folder = Folder::new();
    let there = folder.file("day.txt", "before");
    fs::set_permissions(&there, Permissions::from_mode(0o600)).unwrap();
    let link = folder.at("link.txt");
    symlink(&there, &link).unwrap();
    gcr(&["show", RECORD, "-o", &link]).done();
    assert!(fs::symlink_metadata(&link).unwrap().is_symlink());
    assert_eq!(fs::read_to_string(&there).unwrap(), gcr(&["show", RECORD]).done().text());
    assert_eq!(fs::metadata(&there).unwrap().permissions().mode() & 0o777, 0o600);
}

#[test]
fn standard_output_by_its_name_is_standard_output() {
    let folder = Folder::new();
    let line = format!("gcr show {RECORD} -o /dev/stdout > {0} && cat {0}", folder.at("day.txt"));
    assert_eq!(shell(&line).done().text(), gcr(&["show", RECORD]).done().text());
}
