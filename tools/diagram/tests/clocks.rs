//! A picture tells by how much clocks may differ, where they may, and what its times mean then.

mod support;

use second::predicates::{Answer, Judged};
use second::record::{Edition, Record};
use support::asking::{asked, plain};
use support::drawing::Drawing;
use support::records;
use support::truth::is_true;

const LEGEND: &str = "Times are by each site's own clock.";

fn tells(drawing: &Drawing, difference: u32) {
    let said = format!(", clocks may differ by {difference} ms");
    let between = format!("more than {difference} ms lie between its return and that start.");
    let (title, notes) = (drawing.joined("title"), drawing.joined("note"));
    assert_eq!(title.ends_with(&said), difference > 0, "{title}");
    assert_eq!(title.contains("clocks"), difference > 0, "{title}");
    assert_eq!((notes.contains(LEGEND), notes.contains(&between)), (difference > 0, difference > 0), "{notes}");
}

#[test]
fn the_title_and_the_legend_tell_a_difference_and_nothing_of_none() {
    let (mut with, mut without) = (0, 0);
    for record in records::random().map(|(_, record)| record).chain(records::shipped()) {
        let difference = record.difference;
        tells(&plain(&record), difference);
        *if difference > 0 { &mut with } else { &mut without } += 1;
    }
    assert!(with >= 10 && without >= 10, "{with}, {without}");
}

#[test]
fn the_largest_difference_is_told_whole() {
    tells(&plain(&records::write_then_read(true).apart(u32::MAX)), u32::MAX);
}

#[test]
fn the_sentences_of_3_and_4_are_true_by_any_difference() {
    let (mut one_site, mut between) = (0, 0);
    for (seed, record) in records::random() {
        let record = record.apart([1, 2, 3, 20][seed as usize % 4]);
        let answers = Judged::new(&record).answers();
        for predicate in [3, 4] {
            let drawing = asked(predicate, &record);
            let sentence = drawing.joined("reason");
            let Answer::Broken(a, b) = answers[predicate as usize - 1] else {
                assert!(sentence.is_empty() && drawing.texts("met")[0].ends_with(" is met"), "seed {seed}");
                continue;
            };
            assert!(is_true(&sentence, &record), "seed {seed}: {sentence}");
            let differ = record.events[a].site != record.events[b].site;
            assert_eq!(sentence.contains(" ms before "), differ, "seed {seed}: {sentence}");
            *if differ { &mut between } else { &mut one_site } += 1;
        }
    }
    assert!(one_site >= 20 && between >= 20, "{one_site}, {between}");
}

/// What a difference does not change: marks, arrows, and the breaks of other predicates than 3 and 4.
#[test]
fn a_difference_leaves_the_rest_of_a_picture() {
    let bare = |record: &Record| record.clone().in_edition(Edition::GCR1);
    for (seed, record) in records::random().filter(|(_, record)| record.difference > 0) {
        let even = record.clone().apart(0);
        for predicate in (1..=13).filter(|predicate| ![3, 4].contains(predicate)) {
            let (one, other) = (asked(predicate, &record), asked(predicate, &even));
            for class in ["broken", "met", "reason", "sentence", "event", "said"] {
                assert_eq!(one.joined(class), other.joined(class), "seed {seed}, predicate {predicate}");
            }
            assert_eq!(one.pairs(""), other.pairs(""), "seed {seed}, predicate {predicate}");
        }
        let lines = |record: &Record| plain(record).pairs("");
        assert_eq!(lines(&record), lines(&bare(&record)), "seed {seed}");
    }
}
