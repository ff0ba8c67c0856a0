//! The way of a break is drawn as it is told: step by step, each where it can be followed with the eye.

mod support;

use second::predicates::{Judged, PREDICATES};
use second::record::{Event, Record};
use second::relations::Relations;
use std::collections::BTreeMap;
use std::sync::OnceLock;
use support::asking::{asked, plain, told};
use support::drawing::{Drawing, Element};
use support::frame::{Frame, Point};
use support::records;

/// The predicates that are told by more than the pair.
const BY_STEPS: [u32; 4] = [5, 8, 10, 11];

/// A record, and for each of these predicates the way that is told of its break, and its picture.
struct Case {
    name: String,
    record: Record,
    relations: Relations,
    pictures: Vec<(u32, Vec<usize>, Drawing)>,
}

/// Of random records of every sort, of the longest chains, and of those that ship.
fn cases() -> &'static [Case] {
    static CASES: OnceLock<Vec<Case>> = OnceLock::new();
    let named = |sort: &str, (seed, record): (u64, Record)| (format!("{sort} {seed}"), record);
    CASES.get_or_init(|| {
        let random = records::random().map(|each| named("seed", each));
        let chained = records::chained().map(|each| named("chain", each));
        let shipped = (0..).zip(records::shipped()).map(|each| named("shipped", each));
        random.chain(chained).chain(shipped).chain(records::longest()).map(case).collect()
    })
}

fn case((name, record): (String, Record)) -> Case {
    let judged = Judged::new(&record);
    let way = |predicate: u32| {
        let told = judged.explanation(predicate);
        told.map_or(Vec::new(), |told| [vec![told.a], told.events].concat())
    };
    let pictures = BY_STEPS.map(|predicate| (predicate, way(predicate), asked(predicate, &record))).into();
    let relations = Relations::of(&record);
    Case { name, record, relations, pictures }
}

/// Each step of a predicate's pictures, with its record's relations, its picture and its place on the way.
fn steps(predicate: u32) -> impl Iterator<Item = (&'static Case, &'static Drawing, usize, &'static Element)> {
    let pictures = cases().iter().flat_map(|case| case.pictures.iter().map(move |picture| (case, picture)));
    let its = pictures.filter(move |(_, picture)| picture.0 == predicate);
    its.flat_map(|(case, (_, _, drawing))| {
        drawing.steps().into_iter().enumerate().map(move |(at, step)| (case, drawing, at, step))
    })
}

/// The event whose mark a point touches; marks are further apart.
fn touched(marks: &BTreeMap<usize, Frame>, (x, y): Point) -> Option<usize> {
    let holds = |mark: &Frame| mark.shrunk(-2.0).holds(&Frame { left: x, top: y, right: x, bottom: y });
    marks.iter().find(|(_, mark)| holds(mark)).map(|(&event, _)| event)
}

/// The event whose time ends at a point.
fn returned(marks: &BTreeMap<usize, Frame>, ends: &BTreeMap<usize, f64>, (x, y): Point) -> Option<usize> {
    let is_there = |event: &&usize| (ends[*event] - x).abs() < 0.2 && marks[*event].top < y && y < marks[*event].bottom;
    marks.keys().find(is_there).copied()
}

/// The way, read off where its bands begin and end.
fn read_off(drawing: &Drawing) -> Vec<usize> {
    let (marks, ends, steps) = (drawing.marks(), drawing.returns(), drawing.steps());
    let mut way: Vec<usize> = Vec::new();
    for step in steps {
        let pieces = step.pieces();
        let (begin, end) = (pieces[0].0, pieces[pieces.len() - 1].1);
        let from = touched(&marks, begin).filter(|_| is_sight(step)).or_else(|| returned(&marks, &ends, begin));
        let (from, to) = (from.expect("it begins at an event"), touched(&marks, end).expect("it ends at an event"));
        assert_eq!(step.ends(), (from, to));
        assert!(way.last().is_none_or(|&last| last == from), "{way:?}, then {from}");
        way.extend(if way.is_empty() { vec![from, to] } else { vec![to] });
    }
    way
}

fn is_sight(step: &Element) -> bool {
    match step.class() {
        "step sees" => true,
        "step later" => false,
        other => panic!("{other}"),
    }
}

#[test]
fn the_steps_of_a_picture_are_what_is_told_of_the_break() {
    let (mut long, mut rings, mut middles) = (0, 0, 0);
    for case in cases() {
        for (predicate, due, drawing) in &case.pictures {
            assert_eq!(&read_off(drawing), due, "{}, predicate {predicate}", case.name);
            long += usize::from(due.len() > 6);
            rings += usize::from(due.len() > 1 && due.first() == due.last());
            middles += usize::from(due.len() == 3 && *predicate < 10);
        }
    }
    assert!(long >= 50 && rings >= 50 && middles >= 50, "{long}, {rings}, {middles}");
    let longest = |case: &Case| case.pictures.iter().map(|picture| picture.1.len()).max();
    assert_eq!(cases().iter().filter_map(longest).max(), Some(385));
}

#[test]
fn other_breaks_have_no_steps() {
    for (_, record) in records::random().step_by(4) {
        for predicate in PREDICATES.filter(|predicate| !BY_STEPS.contains(predicate)) {
            assert!(asked(predicate, &record).steps().is_empty());
        }
    }
}

/// A step of 10 or 11 is one of visibility wherever it can be; one by a read is of visibility, then of site order.
#[test]
fn each_step_is_of_the_kind_that_the_record_says() {
    let (mut sights, mut orders) = (0, 0);
    for predicate in BY_STEPS {
        for (case, _, at, step) in steps(predicate) {
            let ((from, to), Relations { so, vis, .. }) = (step.ends(), &case.relations);
            let is_by_sight = if predicate < 10 { at == 0 } else { vis.has(from, to) };
            assert_eq!(is_sight(step), is_by_sight, "{}, predicate {predicate}: {from} to {to}", case.name);
            assert!(if is_by_sight { vis.has(from, to) } else { so.has(from, to) }, "{}: {from} to {to}", case.name);
            *if is_by_sight { &mut sights } else { &mut orders } += 1;
        }
    }
    assert!(sights >= 1_000 && orders >= 200, "{sights}, {orders}");
}

#[test]
fn a_step_of_visibility_lies_under_an_arrow_of_its_own() {
    for predicate in BY_STEPS {
        for (case, drawing, _, step) in steps(predicate).filter(|(.., step)| is_sight(step)) {
            let is_its = |arrow: &&Element| arrow.ends() == step.ends() && arrow.class().starts_with("seen");
            let arrow = drawing.arrows().find(is_its).unwrap_or_else(|| panic!("{}: {:?}", case.name, step.ends()));
            assert_eq!(arrow.attributes["d"], step.attributes["d"], "{}", case.name);
        }
    }
}

#[test]
fn steps_that_filled_heads_would_tell_are_among_them() {
    let small = |record: &Record| record.events.len() < 60;
    let added = |(case, _, _, step): &(&Case, &Drawing, usize, &Element)| {
        is_sight(step) && !plain(&case.record).pairs("seen").contains(&step.ends())
    };
    let count = [5, 10].map(|predicate| steps(predicate).filter(|each| small(&each.0.record)).filter(added).count());
    assert!(count[0] >= 5 && count[1] >= 5, "{count:?}");
}

/// Level in the rows of its site, and to the right, as time goes.
#[test]
fn a_step_of_site_order_goes_along_the_line_of_its_site() {
    let (mut level, mut turned, mut past) = (0, 0, 0);
    for (case, drawing, _, step) in steps(10).filter(|(.., step)| !is_sight(step)) {
        let (marks, (from, to), pieces) = (drawing.marks(), step.ends(), step.pieces());
        let middle = |event: usize| (marks[&event].top + marks[&event].bottom) / 2.0;
        let (begin, end) = (pieces[0].0, pieces[pieces.len() - 1].1);
        assert!((begin.1 - middle(from)).abs() < 0.2 && (end.1 - middle(to)).abs() < 0.2, "{}", case.name);
        assert!(pieces.iter().all(|(here, there)| here.0 <= there.0) && begin.0 < end.0, "{}", case.name);
        *if begin.1 == end.1 { &mut level } else { &mut turned } += 1;
        let is_passed = |&event: &usize| event != from && event != to && marks[&event].is_crossed((begin, end));
        past += usize::from(begin.1 == end.1 && marks.keys().any(is_passed));
    }
    assert!(level >= 50 && turned >= 20 && past >= 5, "{level}, {turned}, {past}");
}

/// So that a ring tells which marks on a site's line are on the way and which are not.
#[test]
fn a_chain_passes_behind_no_mark_that_is_on_it() {
    for (case, drawing, _, step) in [10, 11].into_iter().flat_map(steps).filter(|(.., step)| !is_sight(step)) {
        let (marks, (from, to), pieces) = (drawing.marks(), step.ends(), step.pieces());
        let on_it = drawing.steps().into_iter().map(|step| step.ends().0);
        let is_passed = |&event: &usize| event != from && event != to && marks[&event].is_crossed(pieces[0]);
        let passed = on_it.filter(|_| pieces.len() == 1).find(is_passed);
        assert_eq!(passed, None, "{}: {from} to {to}", case.name);
    }
}

/// The mark at whose upper left corner a number stands.
fn numbered(marks: &BTreeMap<usize, Frame>, count: &Element) -> Option<usize> {
    let frame = count.frame();
    let is_under = |mark: &Frame| (0.0..8.0).contains(&(mark.top - frame.bottom));
    let is_its = |mark: &Frame| (mark.left - frame.right).abs() < 3.0 && is_under(mark);
    marks.iter().find(|(_, mark)| is_its(mark)).map(|(&event, _)| event)
}

/// Few are left out: those that the note leaves no room for.
#[test]
fn the_numbers_of_steps_stand_at_the_marks_that_they_lead_to() {
    let (mut numbers, mut due) = (0, 0);
    for case in cases() {
        for (predicate, way, drawing) in &case.pictures {
            let marks = drawing.marks();
            for count in drawing.named("text").filter(|text| text.class() == "count") {
                let number: usize = count.text.parse().expect("a number");
                assert_eq!(numbered(&marks, count), Some(way[number]), "{}, predicate {predicate}", case.name);
                numbers += 1;
            }
            due += way.len().saturating_sub(1);
        }
    }
    assert!(numbers <= due && 100 * (due - numbers) < due, "{numbers} of {due}");
}

#[test]
fn the_legend_explains_steps_just_where_there_are_some() {
    let (sign, words) = ("step of the way from the pair's first event to its second", "The way goes along arrows,");
    for (_, record) in records::random().step_by(3) {
        for predicate in [1, 5, 9, 11] {
            let drawing = asked(predicate, &record);
            let (notes, has) = (drawing.joined("note"), !drawing.steps().is_empty());
            assert_eq!((notes.contains(sign), notes.contains(words)), (has, has));
            let on_way = drawing.texts("note").contains(&"on the way");
            assert_eq!(on_way, drawing.steps().len() > 1);
            assert!(!has || !notes.contains("named above"));
        }
    }
}

/// In the words of the explanation, also of the events that a long heading leaves out.
#[test]
fn pointing_at_a_step_tells_it() {
    for record in records::longest().into_iter().map(|(_, record)| record).chain([records::long_way()]) {
        let (drawing, text) = (asked(10, &record), told(10, &record));
        let lines: Vec<&str> = text.lines().filter_map(|line| line.strip_prefix("  ")).collect();
        let titles: Vec<&str> = drawing.named("title").map(|title| title.text.as_str()).collect();
        let of_steps: Vec<&str> = titles.into_iter().filter(|title| title.starts_with("step ")).collect();
        let step = |(number, line): (usize, &&str)| format!("step {number} of {}: {line}", lines.len() - 1);
        assert_eq!(of_steps, (1..).zip(&lines[1..]).map(step).collect::<Vec<_>>());
    }
}

/// Of two equally short ways the one whose next event is lower, though its number comes later in the record's times.
#[test]
fn of_equally_short_ways_the_lowest_is_drawn() {
    let events = vec![
        Event::write(0, 0, 7).at(0, 1),
        Event::read(3, 0, None).at(9, 10).sees(&[2, 3]),
        Event::read(1, 0, Some(7)).at(6, 7).sees(&[0]),
        Event::read(2, 0, Some(7)).at(3, 4).sees(&[0]),
    ];
    assert_eq!(read_off(&asked(10, &Record::in_order(4, events))), [0, 2, 1]);
}
