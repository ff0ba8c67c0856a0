//! A picture of a part has the events that are asked for, and says of them what the record says.

mod support;

use diagram::{draw, Asked, Part, Undrawn};
use second::predicates::Judged;
use second::record::{Event, Record};
use second::relations::Relations;
use std::collections::BTreeSet;
use std::sync::OnceLock;
use support::asking::{asked, part_of, plain, predicate};
use support::drawing::Drawing;
use support::seen::{read_off, said};
use support::{parts, records};

/// A part of a record, what is asked of it and its picture; none where there is nothing to draw.
struct Case {
    name: String,
    record: Record,
    part: Part,
    predicate: Option<u32>,
    drawing: Option<Drawing>,
}

fn cases() -> &'static [Case] {
    static CASES: OnceLock<Vec<Case>> = OnceLock::new();
    CASES.get_or_init(|| {
        let chained = records::chained().step_by(3).map(|(seed, record)| (500 + seed, record));
        let large = (1_000..).zip(records::large().into_iter().chain(records::large()));
        let all = records::random().chain(chained).chain(large);
        all.flat_map(|(seed, record)| (0..3).map(move |turn| case(3 * seed + turn, record.clone()))).collect()
    })
}

fn case(seed: u64, record: Record) -> Case {
    let predicate = (seed % 2 == 1).then_some(1 + (seed / 2 % 13) as u32);
    let (part, asked) = (parts::random(seed, &record), of(predicate));
    let drawing = match draw("record", &record.to_bytes(), asked, &part) {
        Ok(picture) => Some(Drawing::read(&picture.svg)),
        Err(why) => {
            assert_eq!(why, Undrawn::Nothing, "seed {seed}");
            None
        }
    };
    Case { name: format!("seed {seed}, {part:?}, {predicate:?}"), record, part, predicate, drawing }
}

fn of(number: Option<u32>) -> Asked {
    number.map_or(Asked::Nothing, |number| Asked::Predicate(predicate(number)))
}

fn drawn() -> impl Iterator<Item = (&'static Case, &'static Drawing)> {
    cases().iter().filter_map(|case| Some((case, case.drawing.as_ref()?)))
}

impl Case {
    /// The events of the break: the way, which has the pair, and whatever else the sentence names.
    fn of_break(&self) -> BTreeSet<usize> {
        let told = self.predicate.and_then(|predicate| Judged::new(&self.record).explanation(predicate));
        let way = told.iter().flat_map(|told| told.events.iter().copied().chain([told.a]));
        let sentence = self.drawing.as_ref().map_or(String::new(), |drawing| drawing.joined("reason"));
        let numbers = sentence.split("event ").skip(1).filter_map(|rest| rest.split([' ', ',', '\'', ';']).next());
        way.chain(numbers.filter_map(|number| number.parse().ok())).collect()
    }

    fn due(&self) -> BTreeSet<usize> {
        parts::events(&self.part, &self.record).union(&self.of_break()).copied().collect()
    }
}

#[test]
fn a_part_has_the_events_that_are_asked_for_and_those_of_the_break() {
    let (mut parts, mut added, mut none) = (0, 0, 0);
    for case in cases() {
        let due = case.due();
        let Some(drawing) = &case.drawing else {
            assert!(due.is_empty(), "{}", case.name);
            none += 1;
            continue;
        };
        assert_eq!(drawing.marks().into_keys().collect::<BTreeSet<_>>(), due, "{}", case.name);
        parts += usize::from(due.len() < case.record.events.len());
        added += usize::from(due.len() > parts::events(&case.part, &case.record).len());
    }
    assert!(parts >= 150 && added >= 30 && none >= 10, "{parts}, {added}, {none}");
}

/// No more and no less, whatever lies between them in the record.
#[test]
fn arrows_tell_exactly_what_drawn_events_see_of_each_other() {
    for (case, drawing) in drawn() {
        let (mut due, marks) = (said(&case.record), drawing.marks());
        for (number, sees) in due.iter_mut().enumerate() {
            let both = |other: usize| marks.contains_key(&number) && marks.contains_key(&other);
            sees.iter_mut().enumerate().for_each(|(other, seen)| *seen &= both(other));
        }
        assert!(read_off(drawing, case.record.events.len()) == due, "{}", case.name);
    }
}

#[test]
fn a_line_is_broken_only_where_the_later_drawn_event_does_not_see() {
    for (case, drawing) in drawn() {
        let Relations { so, vis, .. } = Relations::of(&case.record);
        let gaps = drawing.pairs("gap");
        assert!(gaps.iter().all(|&(from, to)| so.has(from, to) && !vis.has(from, to)), "{}", case.name);
    }
}

/// Numbers, labels and what pointing at a mark shows are as where the record is drawn whole.
#[test]
fn marks_tell_of_their_events_as_in_the_whole_record() {
    let titles = |drawing: &Drawing| -> Vec<(Option<usize>, String)> {
        let of_events = drawing.named("title").filter(|title| title.event.is_some());
        of_events.map(|title| (title.event, title.text.clone())).collect()
    };
    for (case, drawing) in drawn().step_by(2) {
        let whole = titles(&plain(&case.record));
        let due: Vec<_> =
            whole.into_iter().filter(|(event, _)| drawing.marks().contains_key(&event.unwrap())).collect();
        assert_eq!(titles(drawing), due, "{}", case.name);
        let numbers = drawing.named("text").filter(|text| text.class() == "number");
        assert!(numbers.into_iter().all(|text| text.event == text.text.parse().ok()), "{}", case.name);
    }
}

#[test]
fn a_break_and_its_way_are_drawn_as_in_the_whole_record() {
    let mut ways = 0;
    for (case, drawing) in drawn() {
        let Some(number) = case.predicate else { continue };
        let whole = asked(number, &case.record);
        for class in ["broken", "met", "reason", "event", "said"] {
            assert_eq!(drawing.joined(class), whole.joined(class), "{}", case.name);
        }
        assert_eq!(drawing.pairs("break"), whole.pairs("break"), "{}", case.name);
        let steps = |drawing: &Drawing| drawing.steps().iter().map(|step| step.ends()).collect::<Vec<_>>();
        assert_eq!(steps(drawing), steps(&whole), "{}", case.name);
        ways += usize::from(!whole.steps().is_empty());
    }
    assert!(ways >= 15, "{ways}");
}

fn counted(drawn: usize, all: usize, what: &str) -> String {
    let part = if drawn < all { format!("{drawn} of ") } else { String::new() };
    format!("{part}{all} {what}{}", if all == 1 { "" } else { "s" })
}

#[test]
fn the_title_and_the_legend_tell_what_is_left_out() {
    for (case, drawing) in drawn() {
        let (marks, all) = (drawing.marks().len(), case.record.events.len());
        let sites = counted(drawing.texts("site").len(), case.record.sites.into(), "site");
        let title = format!("record: {} at {sites}", counted(marks, all, "event"));
        assert!(drawing.joined("title").starts_with(&title), "{}: {title}", case.name);
        let (notes, left_out) = (drawing.joined("note"), all - marks);
        assert_eq!(notes.contains(&format!("Of {all} events {left_out} ")), left_out > 0, "{}", case.name);
        assert_eq!(notes.contains("sees it and all drawn events that it sees"), left_out > 0, "{}", case.name);
        assert_eq!(notes.contains("sees it and all that it sees"), left_out == 0, "{}", case.name);
        let of_drawn = "A drawn event sees another drawn one only where the arrows tell so, at its own site too;";
        assert_eq!(notes.contains(of_drawn), left_out > 0, "{}", case.name);
        assert_eq!(notes.contains("What the arrows do not tell is not seen"), left_out == 0, "{}", case.name);
        let arrows = drawing.named("title").filter(|title| title.text.contains(" sees event "));
        let heads = arrows.filter(|title| title.text.contains(" all ") && !title.text.starts_with("step "));
        assert!(heads.into_iter().all(|title| title.text.contains(" all drawn events that ") == (left_out > 0)));
    }
}

#[test]
fn sites_have_lines_unless_others_are_asked_for() {
    let (mut fewer, mut added) = (0, 0);
    for (case, drawing) in drawn() {
        let marks = drawing.marks();
        let has_event = |site: usize| marks.keys().any(|&event| usize::from(case.record.events[event].site) == site);
        let is_asked = |site: usize| case.part.sites.is_empty() || case.part.sites.contains(&site);
        let due: Vec<usize> = (0..case.record.sites.into()).filter(|&site| is_asked(site) || has_event(site)).collect();
        assert_eq!(drawing.texts("site"), due.iter().map(|site| format!("site {site}")).collect::<Vec<_>>());
        fewer += usize::from(due.len() < case.record.sites.into());
        added += usize::from(due.iter().any(|&site| !is_asked(site)));
    }
    assert!(fewer >= 20 && added >= 5, "{fewer}, {added}");
}

/// A part that has every event is the record.
#[test]
fn what_leaves_nothing_out_is_drawn_as_the_whole() {
    for (_, record) in records::random().step_by(5).filter(|(_, record)| !record.events.is_empty()) {
        let bytes = record.to_bytes();
        let drawn = |part: &Part| draw("record", &bytes, of(Some(9)), part).expect("it is drawn");
        let sites = Part { sites: (0..record.sites.into()).collect(), ..Part::whole() };
        let objects = Part { objects: (0..256).collect(), ..Part::whole() };
        assert!(drawn(&sites) == drawn(&Part::whole()) && drawn(&objects) == drawn(&Part::whole()));
    }
}

#[test]
fn eight_events_are_drawn_before_and_after_each_of_two() {
    let events = (0..60).map(|number| Event::write(0, 0, 7).at(100 - number, 200)).collect();
    let record = Record::in_order(1, events);
    let around = |a, b| {
        let part = Part { around: Some((a, b)), ..Part::whole() };
        part_of(&part, Asked::Nothing, &record).marks().into_keys().collect::<Vec<_>>()
    };
    assert_eq!(around(20, 20), (12..=28).collect::<Vec<_>>());
    assert_eq!(around(3, 50), (0..=11).chain(42..=58).collect::<Vec<_>>());
    assert_eq!(around(59, 58), (50..=59).collect::<Vec<_>>());
}

/// Large enough for labels, and no wider than a few screens.
#[test]
fn a_part_of_a_largest_record_is_legible() {
    for record in records::large() {
        let part = Part { around: Some((100, 110)), ..Part::whole() };
        let drawing = part_of(&part, Asked::Nothing, &record);
        assert_eq!(drawing.marks().len(), 27);
        assert_eq!(drawing.texts("label").len(), 27);
        assert!(drawing.size().right < 4_000.0, "{:?}", drawing.size());
    }
}

#[test]
fn what_the_record_does_not_have_is_named() {
    let record = records::long_way().to_bytes();
    let why = |part: Part| draw("record", &record, Asked::Nothing, &part).expect_err("it is not drawn").to_string();
    let around = |a, b| Part { around: Some((a, b)), ..Part::whole() };
    assert_eq!(why(around(0, 300)), "there is no event 300: the record has events 0 to 6");
    assert_eq!(why(around(7, 0)), "there is no event 7: the record has events 0 to 6");
    let sites = |sites: &[usize]| Part { sites: sites.to_vec(), ..Part::whole() };
    assert_eq!(why(sites(&[0, 3])), "there is no site 3: the record has sites 0 to 2");
    let nothing = "no event is of the part that is asked for, so there is nothing to draw";
    assert_eq!(why(Part { objects: vec![8, 900], ..Part::whole() }), nothing);
    assert_eq!(why(Part { objects: vec![7], ..sites(&[2]) }), nothing);
    let empty = include_bytes!("../../../records/empty-one-site.gcr");
    let why = draw("record", empty, Asked::Nothing, &around(0, 0)).expect_err("it is not drawn");
    assert_eq!(why.to_string(), "there is no event 0: the record has no events");
    let why = draw("record", empty, Asked::Nothing, &sites(&[1])).expect_err("it is not drawn");
    assert_eq!(why.to_string(), "there is no site 1: the record has site 0 alone");
    assert!(draw("record", empty, Asked::Nothing, &Part::whole()).is_ok());
}
