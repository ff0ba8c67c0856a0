//! Nothing in a picture hides anything else.

mod support;

use diagram::{draw, Asked};
use second::record::Record;
use std::collections::BTreeMap;
use std::sync::OnceLock;
use support::asking::{self, asked, plain};
use support::drawing::{Drawing, Element};
use support::frame::Frame;
use support::{parts, records};

/// Pictures with and without a break, of the records that ship and of random ones.
fn pictures() -> &'static [(String, Drawing)] {
    static PICTURES: OnceLock<Vec<(String, Drawing)>> = OnceLock::new();
    PICTURES.get_or_init(|| {
        let shipped = records::shipped().into_iter().zip(0..);
        let shipped = shipped.flat_map(|(record, number)| of(record, number, "shipped"));
        let random = records::random().flat_map(|(seed, record)| of(record, seed, "seed"));
        shipped.chain(random).chain(with_ways()).collect()
    })
}

/// Pictures with long ways.
fn with_ways() -> impl Iterator<Item = (String, Drawing)> {
    let chained = records::chained().step_by(2).map(|(seed, record)| (format!("chain {seed}"), record));
    let longest = records::longest().into_iter().filter(|(name, _)| !name.contains("ladder"));
    let drawn = |(name, record): (String, Record)| (format!("{name}, predicate 10"), asked(10, &record));
    chained.chain(longest).map(drawn)
}

fn of(record: Record, number: u64, name: &str) -> Vec<(String, Drawing)> {
    let predicate = |by: u64| 1 + ((number + by) % 13) as u32;
    let named = |predicate: u32| format!("{name} {number}, predicate {predicate}");
    let part = parts::random(number, &record);
    let part = draw("record", &record.to_bytes(), Asked::Predicate(asking::predicate(predicate(7))), &part);
    let part = part.ok().map(|picture| (format!("{name} {number}, part"), Drawing::read(&picture.svg)));
    let whole = [
        (format!("{name} {number}"), plain(&record)),
        (named(predicate(0)), asked(predicate(0), &record)),
        (named(predicate(5)), asked(predicate(5), &record)),
    ];
    whole.into_iter().chain(part).collect()
}

/// An arrow touches the marks at its ends with its ends alone.
fn is_behind(arrow: &Element, marks: &BTreeMap<usize, Frame>) -> bool {
    let ((from, to), pieces) = (arrow.ends(), arrow.pieces());
    let crosses = |(&number, mark): (&usize, &Frame)| {
        let mark = if number == from || number == to { mark.shrunk(0.5) } else { *mark };
        pieces.iter().any(|&piece| mark.is_crossed(piece))
    };
    marks.iter().any(crosses)
}

#[test]
fn no_arrow_passes_behind_a_mark() {
    for (name, drawing) in pictures() {
        let marks = drawing.marks();
        for arrow in drawing.arrows() {
            assert!(!is_behind(arrow, &marks), "{name}: {:?}", arrow.ends());
        }
    }
}

#[test]
fn no_arrow_of_a_largest_record_passes_behind_a_mark() {
    for record in records::large() {
        let drawing = asked(9, &record);
        let marks = drawing.marks();
        assert!(drawing.arrows().step_by(7).all(|arrow| !is_behind(arrow, &marks)));
    }
}

#[test]
fn arrows_begin_and_end_at_the_marks_of_their_events() {
    for (name, drawing) in pictures() {
        let marks = drawing.marks();
        for arrow in drawing.arrows().filter(|arrow| arrow.class() != "gap") {
            let (pieces, (from, to)) = (arrow.pieces(), arrow.ends());
            let (begin, end) = (pieces[0].0, pieces[pieces.len() - 1].1);
            let near = |mark: &Frame, (x, y): (f64, f64)| {
                mark.shrunk(-2.0).holds(&Frame { left: x, top: y, right: x, bottom: y })
            };
            assert!(near(&marks[&to], end), "{name}: {from} to {to}");
            // The line to the next event begins where the first one's time ends.
            let is_level = begin.1 == end.1 && pieces.len() == 1;
            assert!(near(&marks[&from], begin) || is_level && begin.0 > marks[&from].right, "{name}: {from} to {to}");
        }
    }
}

#[test]
fn marks_are_apart() {
    for (name, drawing) in pictures() {
        let marks = drawing.marks();
        for (number, mark) in &marks {
            assert!(!marks.range(..number).any(|(_, other)| mark.overlaps(other)), "{name}: event {number}");
        }
    }
}

#[test]
fn no_two_texts_overlap() {
    for (name, drawing) in pictures() {
        let texts: Vec<(&str, Frame)> = drawing.named("text").map(|text| (text.text.as_str(), text.frame())).collect();
        for (number, (text, frame)) in texts.iter().enumerate() {
            let other = texts[..number].iter().find(|(_, other)| frame.overlaps(other));
            assert!(other.is_none(), "{name}: {text:?} and {:?}", other.map(|other| other.0));
        }
    }
}

#[test]
fn texts_stand_inside_their_marks_and_off_all_others() {
    for (name, drawing) in pictures() {
        let marks = drawing.marks();
        for text in drawing.named("text") {
            match text.event {
                Some(event) => assert!(marks[&event].holds(&text.frame()), "{name}: {:?}", text.text),
                None => assert!(!marks.values().any(|mark| mark.overlaps(&text.frame())), "{name}: {:?}", text.text),
            }
        }
    }
}

#[test]
fn everything_stands_inside_the_picture() {
    for (name, drawing) in pictures() {
        let size = drawing.size();
        assert!(drawing.named("text").all(|text| size.holds(&text.frame())), "{name}");
        assert!(drawing.marks().values().all(|mark| size.holds(mark)), "{name}");
        let inside = |arrow: &Element| arrow.pieces().iter().all(|&(from, _)| size.holds(&at(from)));
        assert!(drawing.arrows().chain(drawing.steps()).all(inside), "{name}");
    }
}

fn at((x, y): (f64, f64)) -> Frame {
    Frame { left: x, top: y, right: x, bottom: y }
}

/// A level or an upright line: how high or how far right it is, and from where to where it goes.
struct Stretch {
    ends: (usize, usize),
    at: f64,
    from: f64,
    to: f64,
}

fn stretches(drawing: &Drawing, is_upright: bool) -> Vec<Stretch> {
    let mut stretches = Vec::new();
    for arrow in drawing.arrows().filter(|arrow| arrow.class() != "gap") {
        for (from, to) in arrow.pieces() {
            let (from, to) = if is_upright { ((from.1, from.0), (to.1, to.0)) } else { (from, to) };
            let stretch = Stretch { ends: arrow.ends(), at: from.1, from: from.0.min(to.0), to: from.0.max(to.0) };
            stretches.extend((from.1 == to.1).then_some(stretch));
        }
    }
    stretches.sort_by(|one, other| one.at.total_cmp(&other.at));
    stretches
}

/// Whether two lines could be taken for one, though their arrows neither begin nor end at the same event.
fn is_hidden(one: &Stretch, other: &Stretch) -> bool {
    let have_end = one.ends.0 == other.ends.0 || one.ends.1 == other.ends.1;
    !have_end && one.to.min(other.to) - one.from.max(other.from) > 1.0
}

fn lie_apart(name: &str, stretches: &[Stretch]) {
    for (index, one) in stretches.iter().enumerate() {
        let near = stretches[index + 1..].iter().take_while(|other| other.at - one.at < 0.5);
        let hidden = near.into_iter().find(|other| is_hidden(one, other));
        assert!(hidden.is_none(), "{name}: {:?} on {:?}", one.ends, hidden.map(|hidden| hidden.ends));
    }
}

#[test]
fn lines_of_different_events_do_not_lie_on_each_other() {
    let large = records::large().iter().map(|record| ("large".to_string(), asked(9, record))).collect::<Vec<_>>();
    for (name, drawing) in pictures().iter().chain(&large) {
        lie_apart(name, &stretches(drawing, true));
        lie_apart(name, &stretches(drawing, false));
    }
}
