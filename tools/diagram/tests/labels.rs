//! The words below a picture tell what the labels in its marks say.

mod support;

use diagram::Asked;
use std::collections::BTreeSet;
use support::asking::{part_of, plain};
use support::drawing::Drawing;
use support::{parts, records};

/// What a label says, in the words of the legend.
fn meaning(label: &str) -> String {
    let (kind, rest) = label.split_once(' ').expect("a kind, then an object");
    let (object, value) = rest.split_once(['=', '→']).expect("an object, then a value");
    match (kind, value.trim_end_matches(" (opening)")) {
        ("W", value) => format!("a write of {value} to object {object}"),
        ("R", "none") => format!("a read of object {object} that holds no value"),
        ("R", "?") => format!("a read of object {object} that is pending"),
        ("R", value) => format!("a read of object {object} that holds {value}"),
        _ => panic!("{label}"),
    }
}

fn kind(label: &str) -> &'static str {
    match label {
        write if write.starts_with("W ") => "write",
        none if none.ends_with("→none") => "none",
        open if open.ends_with("→?") => "open",
        _ => "held",
    }
}

/// The labels that the legend tells, each with what it says of it.
fn told(notes: &str) -> Vec<(String, String)> {
    let sentences = notes.replace(", and ", ", ").replace(" is a ", " a ");
    let clauses = sentences.split(['.', ',']).map(str::trim).filter(|clause| clause.starts_with(['W', 'R']));
    let told = clauses.filter_map(|clause| clause.split_once(" a "));
    told.filter(|(label, _)| label.contains(['=', '→'])).map(|(l, words)| (l.into(), format!("a {words}"))).collect()
}

/// How many kinds are told.
fn check(name: &str, drawing: &Drawing) -> usize {
    let (labels, told) = (drawing.texts("label"), told(&drawing.joined("note")));
    for (label, words) in &told {
        assert_eq!(words, &meaning(label), "{name}");
        assert!(labels.contains(&label.as_str()), "{name}: {label}");
    }
    let due: BTreeSet<&str> = labels.iter().map(|label| kind(label)).collect();
    assert_eq!(told.iter().map(|(label, _)| kind(label)).collect::<BTreeSet<_>>(), due, "{name}");
    assert_eq!(told.len(), due.len(), "{name}");
    told.len()
}

#[test]
fn each_kind_of_label_that_a_picture_has_is_told_by_one_of_them() {
    let mut kinds = [0; 5];
    let shipped = (1_000..).zip(records::shipped());
    for (seed, record) in records::random().chain(shipped) {
        kinds[check(&format!("seed {seed}"), &plain(&record))] += 1;
        let part = parts::random(seed, &record);
        if !parts::events(&part, &record).is_empty() {
            check(&format!("part of seed {seed}"), &part_of(&part, Asked::Nothing, &record));
        }
    }
    assert!(kinds[1..].iter().all(|&count| count >= 5), "{kinds:?}");
}

#[test]
fn the_example_is_in_plain_words() {
    let notes = plain(&records::write_then_read(true)).joined("note");
    assert!(notes.contains("W 0=7 is a write of 7 to object 0, and R 0→7 a read of object 0 that holds 7."), "{notes}");
}

/// From 81 events on there are none.
#[test]
fn where_marks_have_no_labels_none_are_told() {
    for record in records::large() {
        let drawing = plain(&record);
        assert!(drawing.texts("label").is_empty() && check("large", &drawing) == 0);
        assert!(!drawing.joined("note").contains(" is a write of "));
    }
}
