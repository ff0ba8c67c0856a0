//! The picture of which model covers which says what the lines say.

mod support;

use std::collections::{BTreeMap, BTreeSet};
use support::drawing::{Drawing, Element};
use support::frame::{Frame, Point};
use support::program::{run_lattice, text};

const LINES: &str = include_str!("../../../crates/lattice/stdout");
const KEPT: &str = include_str!("../../../docs/pictures/lattice.svg");

type Pair = (usize, usize);

fn drawing() -> Drawing {
    Drawing::read(&text(run_lattice(&[], LINES)))
}

/// What the lines call covered; every line begins with a number, and the next in it is the other model's.
fn covered() -> BTreeSet<Pair> {
    let pair = |line: &str| {
        let mut numbers = line.split(' ').filter_map(|word| word.parse().ok());
        (numbers.next().expect("the first"), numbers.next().expect("the second"))
    };
    LINES.lines().filter(|line| line.contains(" covers ")).map(pair).collect()
}

fn boxes(drawing: &Drawing) -> BTreeMap<usize, Frame> {
    let bodies = drawing.named("rect").filter(|element| element.class() == "body");
    bodies.map(|body| (body.event.expect("a box is a model's"), body.frame())).collect()
}

/// From where to where a line goes.
fn reach(line: &Element) -> (Point, Point) {
    let pieces = line.pieces();
    (pieces[0].0, pieces[pieces.len() - 1].1)
}

#[test]
fn the_picture_of_the_documents_is_what_the_program_draws() {
    assert!(text(run_lattice(&[], LINES)) == KEPT);
}

#[test]
fn lines_lead_down_to_what_is_covered_and_to_no_other() {
    let mut led: BTreeSet<Pair> = drawing().pairs("covers").into_iter().collect();
    loop {
        let onward = |&(from, by): &Pair| led.iter().filter(move |pair| pair.0 == by).map(move |pair| (from, pair.1));
        let all: BTreeSet<Pair> = led.iter().flat_map(onward).chain(led.iter().copied()).collect();
        if all == led {
            break;
        }
        led = all;
    }
    assert_eq!(led, covered());
}

#[test]
fn only_what_a_chain_of_others_gives_has_no_line() {
    let listed = |line: &&str| line.contains(" covers ") && !line.contains(", by ");
    assert_eq!(LINES.lines().filter(listed).count(), 18);
    let drawn = drawing().pairs("covers");
    assert_eq!(drawn.len(), 17);
    assert!(!drawn.contains(&(4, 10)) && drawn.contains(&(4, 8)) && drawn.contains(&(8, 10)));
}

#[test]
fn there_are_thirteen_boxes_apart_from_each_other() {
    let boxes: Vec<(usize, Frame)> = boxes(&drawing()).into_iter().collect();
    assert_eq!(boxes.iter().map(|each| each.0).collect::<Vec<_>>(), (1..=13).collect::<Vec<_>>());
    for (index, (model, frame)) in boxes.iter().enumerate() {
        let is_near = |(_, other): &(usize, Frame)| frame.shrunk(-8.0).overlaps(other);
        assert!(!boxes[..index].iter().any(is_near), "{model}");
    }
}

#[test]
fn a_model_stands_below_every_one_that_covers_it() {
    let boxes = boxes(&drawing());
    for (first, second) in covered() {
        assert!(boxes[&first].bottom < boxes[&second].top, "{first} over {second}");
    }
}

#[test]
fn lines_lead_down_from_box_to_box_and_touch_no_other() {
    let drawing = drawing();
    let boxes = boxes(&drawing);
    for line in drawing.arrows() {
        let ((from, to), (begin, end)) = (line.ends(), reach(line));
        let within = |frame: &Frame, x: f64| frame.left + 8.0 < x && x < frame.right - 8.0;
        assert!(begin.1 == boxes[&from].bottom && within(&boxes[&from], begin.0), "{from} to {to}");
        assert!(end.1 == boxes[&to].top && within(&boxes[&to], end.0), "{from} to {to}");
        for piece in line.pieces() {
            assert!(piece.0 .1 < piece.1 .1, "{from} to {to}");
            let others = boxes.iter().filter(|(&model, _)| model != from && model != to);
            assert!(others.into_iter().all(|(_, frame)| !frame.shrunk(-4.0).is_crossed(piece)), "{from} to {to}");
            assert!(!boxes[&from].is_crossed(piece) && !boxes[&to].is_crossed(piece), "{from} to {to}");
        }
    }
}

/// Whether two straight lines have a point in common.
fn meet(one: (Point, Point), other: (Point, Point)) -> bool {
    let side =
        |(from, to): (Point, Point), (x, y): Point| (to.0 - from.0) * (y - from.1) - (to.1 - from.1) * (x - from.0);
    let parts = |line: (Point, Point), ends: (Point, Point)| side(line, ends.0) * side(line, ends.1) <= 0.0;
    parts(one, other) && parts(other, one)
}

#[test]
fn no_two_lines_cross_or_touch() {
    let drawing = drawing();
    let lines: Vec<&Element> = drawing.arrows().collect();
    for (index, one) in lines.iter().enumerate() {
        for other in &lines[..index] {
            let touch = |piece: (Point, Point)| other.pieces().into_iter().any(|another| meet(piece, another));
            assert!(!one.pieces().into_iter().any(touch), "{:?} and {:?}", one.ends(), other.ends());
        }
    }
}

#[test]
fn every_box_has_its_number_and_name_inside() {
    let drawing = drawing();
    let boxes = boxes(&drawing);
    let mut words: BTreeMap<usize, Vec<&str>> = BTreeMap::new();
    for text in drawing.named("text") {
        let Some(model) = text.event else { continue };
        assert!(boxes[&model].holds(&text.frame()), "{:?}", text.text);
        words.entry(model).or_default().push(&text.text);
    }
    for (model, words) in words {
        let named = words.join(" ");
        assert!(named.starts_with(&format!("{model} ")));
        assert!(LINES.lines().any(|line| line.starts_with(&format!("{named} "))), "{named}");
    }
}

#[test]
fn no_two_texts_overlap_and_all_stand_inside_the_picture() {
    let drawing = drawing();
    let texts: Vec<&Element> = drawing.named("text").collect();
    for (index, text) in texts.iter().enumerate() {
        assert!(drawing.size().holds(&text.frame()), "{:?}", text.text);
        assert!(!texts[..index].iter().any(|other| other.frame().overlaps(&text.frame())), "{:?}", text.text);
    }
    assert!(boxes(&drawing).values().all(|frame| drawing.size().holds(frame)));
}

/// The lines with the first of these in place of the second.
fn edited(from: &str, to: &str) -> String {
    assert!(LINES.contains(from));
    LINES.replacen(from, to, 1)
}

fn is_refused(lines: &str, why: &str) {
    let output = run_lattice(&[], lines);
    assert_eq!((output.status.code(), output.stdout.len()), (Some(1), 0), "{why}");
    assert_eq!(String::from_utf8_lossy(&output.stderr), format!("{why}\n"));
}

#[test]
fn a_line_that_cannot_be_read_is_refused() {
    let first = "1 linearizable covers 2 regular\n";
    is_refused(&edited(first, "what\n"), "line 1 cannot be read: \"what\"");
    is_refused(&edited(first, &format!("{first}\n")), "line 2 cannot be read: \"\"");
    let shown = "NOT SHOWN: no record meets 2 regular and breaks 1 linearizable";
    let kept = "2 regular does not cover 1 linearizable: record 5, 3 broken 1 2";
    is_refused(
        &edited(kept, shown),
        &format!("line 13 says that something is not shown, so nothing is drawn: {shown:?}"),
    );
}

#[test]
fn lines_that_do_not_tell_all_are_refused() {
    is_refused("", "no line tells whether 1 covers 2");
    is_refused(&edited("3 sequential covers 4 causal\n", ""), "no line tells whether 3 covers 4");
    let first = "1 linearizable covers 2 regular\n";
    is_refused(&edited(first, &first.repeat(2)), "line 2 tells what an earlier one told");
    is_refused(&edited(first, "1 linearizable covers 1 linearizable\n"), "line 1 tells of one model alone");
}

#[test]
fn lines_that_do_not_go_together_are_refused() {
    is_refused(
        &edited("7 per-object sequential covers 13 slow memory", "7 per-object sequential covers 13 slow"),
        "line 84 calls model 13 slow, not slow memory",
    );
    is_refused(
        &edited(
            "2 regular does not cover 9 monotonic reads: record 5, 5 broken 0 2",
            "2 regular covers 9 monotonic reads, by 10 read your writes",
        ),
        "no chain of the table's pairs leads from 2 to 9",
    );
    is_refused(
        &edited(
            "4 causal covers 13 slow memory, by 8 Pram",
            "4 causal does not cover 13 slow memory: record 1, 1 broken 0 0",
        ),
        "the table's pairs lead from 4 to 13, which a line denies",
    );
    is_refused(
        &edited(
            "10 read your writes does not cover 1 linearizable: record 1, 3 broken 0 1",
            "10 read your writes covers 1 linearizable",
        ),
        "the table's pairs lead from 1 back to it",
    );
    is_refused(
        &edited("1 linearizable covers 4 causal, by 3 sequential", "1 linearizable covers 4 causal, by 8 Pram"),
        "line 3: no chain leads by 8",
    );
}

#[test]
fn other_words_give_the_usage() {
    for words in [&["lines"][..], &["--help"], &["a", "b"]] {
        let output = run_lattice(words, LINES);
        assert_eq!((output.status.code(), output.stdout.len()), (Some(1), 0));
        assert_eq!(String::from_utf8_lossy(&output.stderr), "usage: lattice < lines > picture.svg\n");
    }
}
