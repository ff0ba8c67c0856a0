//! Which files the command replaces: those of the kind that it writes, and empty ones.

mod support;

use std::fs;
use support::folder::Folder;
use support::{bytes, gcr};

/// A file for each kind, and how a message names it.
fn kinds() -> [(&'static str, Vec<u8>); 5] {
    [
        ("a record", bytes("records/clocks.gcr")),
        ("a script in bytes", bytes("records/closing.script")),
        ("text", bytes("README.md")),
        ("a picture", bytes("docs/pictures/lattice.svg")),
        ("neither text nor anything that gcr writes", b"\x89PNG\0".to_vec()),
    ]
}

/// What a command writes by which option, and of what, and how a message says what that replaces.
const WRITTEN: [(&str, [&str; 3], &str); 5] = [
    ("a record", ["make", "log.txt", "-o"], "a record replaces only records"),
    ("a record", ["rehearse", "script.txt", "-o"], "a record replaces only records"),
    ("a script in bytes", ["rehearse", "script.txt", "--bytes-to"], "a script in bytes replaces only such scripts"),
    ("text", ["show", "day.gcr", "-o"], "text replaces only text"),
    ("a picture", ["draw", "day.gcr", "-o"], "a picture replaces only pictures"),
];

/// A folder with what the commands read.
fn folder() -> Folder {
    let folder = Folder::new();
    folder.file("day.gcr", bytes("records/listing.gcr"));
    folder.file("log.txt", gcr(&["show", "records/listing.gcr"]).done().out);
    folder.file("script.txt", "sites 2\nput 0 5 100\n");
    folder
}

#[test]
fn a_file_is_replaced_by_its_own_kind_alone() {
    let folder = folder();
    for (made, [command, from, option], rule) in WRITTEN {
        for (there, content) in kinds() {
            let to = folder.file("there", &content);
            let ran = gcr(&[command, &folder.at(from), option, &to]);
            if there == made {
                assert_eq!((ran.status, ran.err.as_str()), (0, ""), "{command} over {there}");
                assert!(fs::read(&to).unwrap() != content, "{command} over {there}");
            } else {
                let why =
                    format!("{option} names {to}, which is {there}, and {rule}: name another file, or remove this one");
                ran.ended(4, &format!("{why} (gcr {command} --help tells more)"));
                assert!(fs::read(&to).unwrap() == content, "{command} over {there}");
            }
        }
    }
}

/// A file that is empty, or that is not there, is written by all of them, and what they wrote they replace.
#[test]
fn what_is_empty_or_was_written_is_replaced() {
    let folder = folder();
    for (_, [command, from, option], _) in WRITTEN {
        let words = [command, &folder.at(from), option, &folder.at("there")];
        let written = |words: &[&str]| {
            let ran = gcr(words);
            assert_eq!((ran.status, ran.err.as_str()), (0, ""), "{words:?}");
            fs::read(folder.at("there")).unwrap()
        };
        let first = written(&words);
        assert!(!first.is_empty() && written(&words) == first, "{command}");
        folder.file("there", "");
        assert!(written(&words) == first, "{command}");
        fs::remove_file(folder.at("there")).unwrap();
    }
}

/// What other programs draw begins as any XML does, and no other XML is a picture.
#[test]
fn a_picture_does_not_replace_other_xml() {
    let folder = folder();
    let drawn = |there: &str| gcr(&["draw", "-q", &folder.at("day.gcr"), "-o", &folder.file("there.xml", there)]);
    let members = "<?xml version=\"1.0\"?>\n<members><member>43</member></members>\n";
    let to = folder.at("there.xml");
    let why = format!("-o names {to}, which is text, and a picture replaces only pictures");
    let what = format!("{why}: name another file, or remove this one (gcr draw --help tells more)");
    drawn(members).ended(4, &what);
    assert_eq!(fs::read_to_string(&to).unwrap(), members);
    drawn("<?xml version=\"1.0\"?>\n<!-- by hand -->\n<svg xmlns=\"http://www.w3.org/2000/svg\"/>\n").done();
    assert!(fs::read_to_string(&to).unwrap().starts_with("<svg"));
}

/// A device has nothing to lose.
#[test]
fn devices_are_written_to() {
    let folder = folder();
    for (_, [command, from, option], _) in WRITTEN {
        let ran = gcr(&[command, &folder.at(from), option, "/dev/null"]);
        assert_eq!((ran.status, ran.err.as_str()), (0, ""), "{command}");
    }
}
