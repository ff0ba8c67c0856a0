//! Many records at once, as people name them: folders, what stands beside records in them, and what a day has to be.

mod support;

use std::fs;
use std::os::unix::fs::symlink;
use support::folder::Folder;
use support::{bytes, gcr, piped, shell, shipped, Ran};

/// Records that differ, and all meet Causal.
const MET: [&str; 4] = ["clocks", "listing", "opening", "never-returned"];

fn met(which: usize) -> Vec<u8> {
    bytes(&format!("records/{}.gcr", MET[which]))
}

/// With these words, then a folder.
fn run(words: &[&str], folder: &Folder) -> Ran {
    gcr(&[words, &[folder.path().to_str().expect("a path of letters")]].concat())
}

/// Names from the folder on, without what was found of them.
fn names(ran: &Ran, folder: &Folder, count: usize) -> Vec<String> {
    let folder = format!("{}/", folder.path().display());
    let name = |line: &&str| line.split(": ").next().unwrap().replace(&folder, "");
    ran.lines().iter().take(count).map(name).collect()
}

/// The lines after those of records, with names from the folder on.
fn summary(text: &str, folder: &Folder, records: usize) -> Vec<String> {
    let text = text.replace(&format!("{}/", folder.path().display()), "");
    text.lines().skip(records).map(str::to_string).collect()
}

#[test]
fn a_folder_stands_for_its_records_by_name() {
    let ran = gcr(&["judge", "records"]);
    let names: Vec<String> = shipped().into_iter().map(|(name, _)| name).collect();
    let told: Vec<&str> = ran.lines().iter().filter_map(|line| line.split(": ").next()).collect();
    assert_eq!(told[..names.len()], names);
    assert!(ran.lines()[names.len()].starts_with(&format!("{} records against Causal: ", names.len())));
    assert_eq!(ran.status, 1);
}

#[test]
fn numbers_in_names_count_as_numbers() {
    let folder = Folder::new();
    let due = ["rec-2.gcr", "rec-9.gcr", "rec-010.gcr", "rec-10.gcr", "rec-100.gcr", "rec-a.gcr"];
    due.iter().for_each(|name| drop(folder.file(name, met(0))));
    assert_eq!(names(&run(&["judge"], &folder), &folder, due.len()), due);
}

#[test]
fn a_folder_without_records_is_not_read() {
    let folder = Folder::new();
    folder.file("a.txt", b"");
    let why = "nothing in this folder ends in .gcr";
    for words in [&["judge"][..], &["judge", "--recursive"]] {
        let ran = run(words, &folder);
        assert!(ran.lines()[0].ends_with(&format!(": not read: {why}")));
        assert_eq!(ran.status, 3);
    }
    let ran = run(&["explain"], &folder);
    assert_eq!(ran.err, format!("gcr: cannot read {}: {why}\n", folder.path().display()));
    assert_eq!(ran.status, 3);
}

#[test]
fn what_is_no_file_in_a_folder_is_not_waited_for() {
    let folder = Folder::new();
    folder.file("a.gcr", met(0));
    fs::create_dir(folder.at("b.gcr")).unwrap();
    assert!(shell(&format!("mkfifo '{}'", folder.at("c.gcr"))).status == 0);
    let ran = run(&["judge"], &folder);
    assert!(ran.lines()[0].ends_with("a.gcr: met"));
    assert!(ran.lines()[1].ends_with("b.gcr: not read: this is no file"));
    assert!(ran.lines()[2].ends_with("c.gcr: not read: this is no file"));
    assert_eq!(ran.status, 3);
}

/// A folder with something of all that is to be told of.
fn untidy() -> Folder {
    let folder = Folder::new();
    folder.file("a.gcr", met(0));
    folder.file("B.GCR", met(1));
    folder.file(".gcr", met(0));
    folder.file("c.gcr.part", met(2));
    folder.file("notes.txt", b"");
    folder.file("z.gcr", bytes("records/empty-one-site.gcr"));
    fs::create_dir(folder.at("more")).unwrap();
    folder.file("more/d.gcr", met(2));
    folder
}

const UNTIDY: [&str; 5] = [
    "4 records against Causal: 4 met, 0 broken, 0 refused, 0 not read",
    "2 names do not end in .gcr and were passed over: c.gcr.part, notes.txt",
    "1 folder in a folder was passed over: more",
    "1 record has no event: z.gcr",
    "1 record has the bytes of another: a.gcr as .gcr",
];

#[test]
fn what_a_folder_has_beside_good_records_is_told() {
    let folder = untidy();
    let ran = run(&["judge"], &folder).done();
    assert_eq!(names(&ran, &folder, 4), [".gcr", "B.GCR", "a.gcr", "z.gcr"]);
    assert_eq!(summary(ran.text(), &folder, 4), UNTIDY);
    let ran = run(&["judge", "--quiet"], &folder).done();
    assert_eq!(summary(ran.text(), &folder, 0), UNTIDY);
    let ran = run(&["explain"], &folder).done();
    assert_eq!(summary(ran.text(), &folder, 8), UNTIDY); // four lines, with an empty one after each
}

#[test]
fn output_for_programs_has_it_on_standard_error() {
    let folder = untidy();
    for (words, lines) in [(&["judge", "--json"][..], 4), (&["judge", "--csv"], 5), (&["explain", "--json"], 4)] {
        let ran = run(words, &folder);
        assert_eq!((ran.lines().len(), ran.status), (lines, 0));
        assert_eq!(summary(&ran.err, &folder, 0), UNTIDY);
    }
}

#[test]
fn strict_allows_none_of_it() {
    let told = "--strict allows none of this: the status is 3";
    let folder = untidy();
    let ran = run(&["judge", "--strict"], &folder);
    assert_eq!(summary(ran.text(), &folder, 4), [&UNTIDY[..], &[told]].concat());
    assert_eq!(ran.status, 3);
    let ran = run(&["judge", "--strict", "--json"], &folder);
    assert_eq!(summary(&ran.err, &folder, 0).last().unwrap(), told);
    assert_eq!((ran.lines().len(), ran.status), (4, 3));
}

/// Each kind by itself.
#[test]
fn strict_allows_no_kind_of_it() {
    let (folder, stale) = (Folder::new(), bytes("records/stale-read.gcr"));
    folder.file("a.gcr", met(0));
    run(&["judge", "--strict"], &folder).done();
    folder.file("b.gcr", &stale);
    run(&["judge", "--strict"], &folder).ends(1);
    for (name, bytes) in
        [("notes.txt", b"".as_slice()), ("c.gcr", &stale), ("z.gcr", &bytes("records/empty-one-site.gcr"))]
    {
        let path = folder.file(name, bytes);
        assert_eq!((run(&["judge"], &folder).status, run(&["judge", "--strict"], &folder).status), (1, 3), "{name}");
        fs::remove_file(path).unwrap();
    }
    fs::create_dir(folder.at("more")).unwrap();
    assert_eq!((run(&["judge"], &folder).status, run(&["judge", "--strict"], &folder).status), (1, 3));
}

#[test]
fn of_many_names_five_are_told() {
    let folder = Folder::new();
    folder.file("1.gcr", met(0));
    (1..=12).for_each(|number| drop(folder.file(&format!("{number}.txt"), b"")));
    let ran = run(&["judge"], &folder).done();
    let told = "12 names do not end in .gcr and were passed over: 1.txt, 2.txt, 3.txt, 4.txt, 5.txt and 7 more";
    assert_eq!(summary(ran.text(), &folder, 2), [told]);
}

#[test]
fn the_same_bytes_are_told_wherever_they_come_from() {
    let (clocks, listing) = ("records/clocks.gcr", "records/listing.gcr");
    let folder = Folder::new();
    let copy = folder.file("copy.gcr", met(0));
    let ran = piped(&["judge", clocks, listing, clocks, &copy, "-"], &met(1)).done();
    let told = format!("{clocks} as {clocks}, {copy} as {clocks}, standard input as {listing}");
    assert_eq!(ran.lines()[6..], [format!("3 records have the bytes of another: {told}")]);
    assert_eq!(gcr(&["judge", "--strict", clocks, clocks]).status, 3);
}

/// What was refused is no record, and of what is too long only the start is read.
#[test]
fn what_is_refused_is_not_compared() {
    let folder = Folder::new();
    let long = [0; 30_000];
    let (one, other) = (folder.file("1.gcr", long), folder.file("2.gcr", long));
    let ran = gcr(&["judge", "--strict", &one, &other]);
    assert_eq!((ran.lines().len(), ran.status), (3, 2));
}

#[test]
fn another_number_of_records_than_expected_is_told() {
    let folder = Folder::new();
    folder.file("a.gcr", met(0));
    folder.file("b.gcr", met(1));
    run(&["judge", "--expect", "2"], &folder).done();
    for (count, were) in [(0, "0 records were"), (1, "1 record was"), (3, "3 records were"), (43, "43 records were")] {
        let told = format!("{were} expected, and 2 were read: the status is 3");
        let ran = run(&["judge", &format!("--expect={count}")], &folder);
        assert_eq!((ran.lines()[3], ran.status), (told.as_str(), 3));
        let ran = run(&["judge", "--csv", "--expect", &count.to_string()], &folder);
        assert_eq!((ran.err.lines().last(), ran.status), (Some(told.as_str()), 3));
    }
}

/// Refused ones were read; those that could not be read do not count.
#[test]
fn what_was_read_counts_as_a_record() {
    let (met, refused, missing) = ("records/clocks.gcr", "README.md", "no-such.gcr");
    assert_eq!(gcr(&["judge", "--expect", "2", met, refused]).status, 2);
    assert_eq!(gcr(&["judge", "--expect", "2", met, met]).status, 0);
    let ran = gcr(&["judge", "--expect", "2", met, missing]);
    assert_eq!(ran.lines()[3..], ["2 records were expected, and 1 was read: the status is 3"]);
    let ran = gcr(&["judge", "--expect", "1", met, missing]);
    assert_eq!((ran.lines().len(), ran.status), (3, 3));
}

#[test]
fn an_expected_number_is_one_number() {
    let more = "(gcr judge --help tells more)";
    for word in ["many", "-1", "2.5", ""] {
        let message = format!("--expect takes a number of records, and {word} is none {more}");
        gcr(&["judge", "--expect", word, "records"]).ended(4, &message);
    }
    gcr(&["judge", "--expect", "1", "--expect", "2"]).ended(4, &format!("--expect is given twice {more}"));
}

/// A folder of folders, with records in some.
fn nested() -> Folder {
    let folder = Folder::new();
    for inner in ["site-10", "site-2", "site-2/late", "site-2/late.gcr"] {
        fs::create_dir_all(folder.at(inner)).unwrap();
    }
    folder.file("site-10/1.gcr", met(0));
    folder.file("site-2/late/1.gcr", met(1));
    folder.file("site-2/late.gcr/2.gcr", met(2));
    folder.file("site-2/b.gcr", met(3));
    folder.file("site-2/b.txt", b"");
    folder.file("site-3.gcr", bytes("records/stale-read.gcr"));
    folder
}

#[test]
fn folders_in_folders_are_looked_into_where_that_is_asked_for() {
    let folder = nested();
    let due = ["site-2/b.gcr", "site-2/late/1.gcr", "site-2/late.gcr/2.gcr", "site-3.gcr", "site-10/1.gcr"];
    let ran = run(&["judge", "--recursive"], &folder);
    assert_eq!(names(&ran, &folder, 5), due);
    let told = [
        "5 records against Causal: 4 met, 1 broken, 0 refused, 0 not read",
        "1 name does not end in .gcr and was passed over: site-2/b.txt",
    ];
    assert_eq!((summary(ran.text(), &folder, 5), ran.status), (told.map(str::to_string).to_vec(), 1));
    let ran = run(&["judge"], &folder);
    let told = [
        "1 record against Causal: 0 met, 1 broken, 0 refused, 0 not read",
        "2 folders in folders were passed over: site-2, site-10",
    ];
    assert_eq!((summary(ran.text(), &folder, 1), ran.status), (told.map(str::to_string).to_vec(), 1));
    let ran = run(&["explain", "--recursive", "--json"], &folder);
    assert_eq!((ran.lines().len(), ran.status), (5, 1));
}

#[test]
fn an_inner_folder_without_records_is_told_too() {
    let folder = nested();
    fs::create_dir_all(folder.at("site-4/none")).unwrap();
    let ran = run(&["judge", "--recursive", "--quiet"], &folder);
    let told = "site-4/none: not read: nothing in this folder ends in .gcr";
    assert!(ran.lines()[1].ends_with(told), "{}", ran.text());
    assert_eq!(ran.status, 3);
}

#[test]
fn links_to_folders_are_not_followed() {
    let folder = nested();
    symlink(folder.path(), folder.at("site-2/round")).unwrap();
    symlink(folder.at("site-10"), folder.at("site-11")).unwrap();
    symlink(folder.at("site-3.gcr"), folder.at("site-12.gcr")).unwrap();
    let ran = run(&["judge", "--recursive"], &folder);
    let told = summary(ran.text(), &folder, 6);
    assert_eq!(told[0], "6 records against Causal: 4 met, 2 broken, 0 refused, 0 not read");
    assert_eq!(told[2], "2 folders in folders were passed over: site-2/round, site-11");
    assert_eq!(told[3], "1 record has the bytes of another: site-12.gcr as site-3.gcr");
    let ran = gcr(&["judge", &folder.at("site-11")]); // who names a link means what it leads to
    assert_eq!((ran.lines().len(), ran.status), (2, 0));
}

#[test]
fn folders_may_be_deep() {
    let folder = Folder::new();
    let mut inner = String::new();
    for number in 0..200 {
        inner.push_str(&format!("{number}/"));
    }
    fs::create_dir_all(folder.at(&inner)).unwrap();
    folder.file(&format!("{inner}a.gcr"), met(0));
    let ran = run(&["judge", "--recursive"], &folder).done();
    assert_eq!(ran.lines().len(), 2);
}

#[test]
fn a_summary_that_is_lost_is_noticed() {
    let ran = shell("gcr judge --json records/clocks.gcr 2>/dev/full");
    assert_eq!((ran.lines().len(), ran.status), (1, 3));
}
