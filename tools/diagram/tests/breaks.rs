//! What a picture says of a break is what the record says.

mod support;

use second::models::{answer_of, MODELS};
use second::openings::Openings;
use second::predicates::{Answer, Judged, PREDICATES};
use second::record::{Event, Record};
use support::asking::{asked, asked_model, plain};
use support::drawing::Drawing;
use support::records;
use support::truth::is_true;

#[test]
fn a_missing_visibility_is_a_dashed_and_crossed_arrow_with_a_sentence() {
    let drawing = asked(5, &records::shipped()[1]);
    assert_eq!(drawing.pairs("break"), [(0, 2)]);
    assert_eq!(drawing.pairs("break unseen"), [(0, 2)]);
    assert_eq!(drawing.texts("said"), ["event 2 does not see event 0"]);
    assert!(drawing.joined("reason").starts_with("event 2 does not see event 0, though "));
    let style = &drawing.named("style").next().expect("a picture has one").text;
    let rule = style.lines().find(|line| line.starts_with(".break.unseen")).expect("it has a rule");
    assert!(rule.contains("stroke-dasharray"));
    // One cross in the legend, one on the arrow.
    let crosses: Vec<_> = drawing.named("path").filter(|path| path.class() == "cross").collect();
    assert_eq!(crosses.len(), 2);
    // A pale edge tells it from a band that it lies on, and does not cut the arrow.
    let at = |class: &str| drawing.elements.iter().rposition(|element| element.class() == class).expect("it is there");
    assert!(at("step later") < at("edge") && at("edge") < at("break unseen"));
    assert_eq!(drawing.elements[at("edge")].attributes["d"], crosses[0].attributes["d"]);
    let arrow = drawing.arrows().find(|path| path.class() == "break unseen").expect("it is there").pieces();
    let ((left, top), (right, bottom)) = crosses[0].pieces()[0];
    let cross = support::frame::Frame { left, top, right, bottom };
    assert!(arrow.iter().any(|&piece| cross.is_crossed(piece)));
}

#[test]
fn an_arbitration_that_should_not_be_is_an_arrow_from_the_earlier_place_to_the_later() {
    let drawing = asked(3, &records::shipped()[0]);
    assert_eq!(drawing.pairs("break"), [(3, 2)]);
    assert_eq!(drawing.pairs("break placed"), [(3, 2)]);
    assert_eq!(drawing.texts("said"), ["event 3 is placed before event 2 in arbitration"]);
}

#[test]
fn a_visibility_that_should_not_be_is_an_arrow_against_that_of_arbitration_and_the_words_are_on_neither() {
    let separating_4 = Record::from_bytes(include_bytes!("../../../records/separating-4.gcr"));
    let drawing = asked(2, &separating_4);
    assert_eq!(drawing.pairs("break"), [(0, 2), (2, 0)]);
    assert_eq!(drawing.pairs("break placed"), [(2, 0)]);
    let said = drawing.named("text").find(|text| text.class() == "said").expect("it is there").frame();
    let pieces = drawing.arrows().flat_map(|arrow| arrow.pieces());
    assert!(pieces.into_iter().all(|piece| !said.is_crossed(piece)));
}

#[test]
fn only_a_broken_verdict_draws_a_break() {
    let listing = &records::shipped()[0];
    for met in [plain(listing), asked(4, listing), asked_model(4, listing)] {
        let of_break = |element: &&support::drawing::Element| element.class().starts_with("break");
        assert_eq!(met.elements.iter().filter(of_break).count(), 0);
        assert!(met.texts("reason").is_empty() && met.texts("said").is_empty());
        assert!(!met.named("rect").any(|rect| rect.class().starts_with("ring")));
    }
}

/// A record and what its picture says of its break of a predicate.
type Case = (u32, Record, &'static str);

fn one_site(events: Vec<Event>) -> Record {
    Record::in_order(1, events)
}

fn write(value: u32, start: u64) -> Event {
    Event::write(0, 0, value).at(start, start + 1)
}

fn read(start: u64) -> Event {
    Event::read(0, 0, None).at(start, start + 1)
}

/// A write that the first of two events of another site sees, a read.
fn seen_by_read(last: Event) -> Record {
    let events = vec![write(7, 0), Event::read(1, 0, Some(7)).at(2, 3).sees(&[0]), last];
    Record::in_order(2, events)
}

fn of_values_and_orders() -> Vec<Case> {
    let unwritten = |value| one_site(vec![Event::read(0, 3, value).at(0, 1)]);
    let pending = |last: Event| one_site(vec![Event::write(0, 0, 7).pending_from(0), read(2).sees(&[0]), last]);
    vec![
        (1, records::shipped()[2].clone(), "event 2 holds 7, not 8: of the writes on object 0 that it sees, event 1 is the last in arbitration"),
        (1, records::shipped()[5].clone(), "event 1 holds 40, not 41: of the writes on object 0 that it sees, event 0 is the last in arbitration"),
        (1, unwritten(Some(0)), "event 0 holds 0, not none: it sees no write on object 3, which has no opening"),
        (1, unwritten(Some(0)).opened(Openings::none().with(2, 0)), "event 0 holds 0, not none: it sees no write on object 3, which has no opening"),
        (1, unwritten(None).opened(Openings::none().with(3, 0)), "event 0 holds none, not 0: it sees no write on object 3, whose opening is 0"),
        (1, unwritten(Some(40)).opened(Openings::none().with(3, 41)), "event 0 holds 40, not 41: it sees no write on object 3, whose opening is 41"),
        (2, records::write_then_read(false), "event 1 does not see event 0, though arbitration places event 0 before event 1"),
        (2, records::write_then_read(true).with_positions(&[1, 0]), "event 1 sees event 0, though arbitration places event 1 before event 0"),
        (2, pending(read(4).sees(&[1])), "event 2 does not see event 0, though arbitration places event 0 before event 2; event 0 is pending, but event 1 sees it"),
        (13, records::shipped()[0].clone(), "event 1 does not see event 0, though arbitration places event 0 before event 1, both on object 5"),
    ]
}

/// Each of these events but the first sees one alone: 2 sees 0, then each the one before, and 1 sees the last. All overlap.
fn long_chain(events: usize) -> Record {
    let seen = |number: usize| match number {
        0 => vec![],
        1 => vec![events - 1],
        2 => vec![0],
        _ => vec![number - 1],
    };
    one_site((0..events).map(|number| write(7, 0).sees(&seen(number))).collect())
}

fn of_long_chains() -> Vec<Case> {
    vec![
        (10, long_chain(6), "event 1 does not see event 0, though event 0 is seen by event 2, which is seen by event 3, which is seen by event 4, which is seen by event 5, which is seen by event 1"),
        (10, long_chain(7), "event 1 does not see event 0, though event 0 leads to event 1 by visibility through events 2, 3, 4, 5, 6"),
        (10, long_chain(8), "event 1 does not see event 0, though event 0 leads to event 1 by visibility through events 2, 3, 4, 5, 6, 7"),
        (10, long_chain(9), "event 1 does not see event 0, though event 0 leads to event 1 by visibility through events 2, 3, 4, 5, 6 and 2 more, the last of them event 8"),
        (10, long_chain(256), "event 1 does not see event 0, though event 0 leads to event 1 by visibility through events 2, 3, 4, 5, 6 and 249 more, the last of them event 255"),
        (10, long_chain(384), "event 1 does not see event 0, though event 0 leads to event 1 by visibility through events 2, 3, 4, 5, 6 and 377 more, the last of them event 383"),
    ]
}

fn of_missing_visibility() -> Vec<Case> {
    let (unseen, stale) = (records::write_then_read(false), records::shipped()[1].clone());
    let back = |event: Event| one_site(vec![read(0).sees(&[1]), event]);
    vec![
        (
            5,
            stale.clone(),
            "event 2 does not see event 0, though event 1, an earlier read at event 2's site, sees event 0",
        ),
        (5, back(read(2)), "event 1 would have to see itself, as event 0, an earlier read at event 1's site, sees it"),
        (6, unseen.clone(), "event 1 does not see event 0, an earlier write at its site"),
        (9, unseen.clone(), "event 1 does not see event 0, an earlier event at its site"),
        (10, stale, "event 2 does not see event 0, though event 0 is seen by event 1, which is seen by event 2"),
        (
            10,
            back(write(7, 2)),
            "event 0 would have to see itself, as event 0 is before event 1 at site 0, which is seen by event 0",
        ),
        (12, unseen, "event 1 does not see event 0, an earlier event at its site on its object, 0"),
    ]
}

fn of_arbitration() -> Vec<Case> {
    let writes = one_site(vec![write(7, 0), write(8, 2)]).with_positions(&[1, 0]);
    let followed = seen_by_read(Event::write(1, 0, 8).at(4, 5)).with_positions(&[2, 1, 0]);
    let back = one_site(vec![read(0).sees(&[1]), write(7, 2)]);
    // Between the sites, or at one of them, a write returned at 5 and a read started at 10.
    let apart = |site: u8, difference| {
        let events = vec![Event::write(0, 0, 7).at(0, 5), Event::read(site, 0, None).at(10, 11)];
        Record::in_order(2, events).with_positions(&[1, 0]).apart(difference)
    };
    vec![
        (3, apart(1, 4), "event 1 is placed before event 0 in arbitration, though event 0 returned at 5 ms, more than 4 ms before event 1 started at 10 ms"),
        (4, apart(1, 4), "event 1 is placed before event 0 in arbitration, though event 0, a write, returned at 5 ms, more than 4 ms before event 1 started at 10 ms"),
        (3, apart(1, 0), "event 1 is placed before event 0 in arbitration, though event 0 returned at 5 ms, before event 1 started at 10 ms"),
        (3, apart(0, 5), "event 1 is placed before event 0 in arbitration, though event 0 returned at 5 ms, before event 1 started at 10 ms"),
        (4, records::shipped()[7].clone(), "event 1 is placed before event 0 in arbitration, though event 0, a write, returned at 110 ms, more than 39 ms before event 1 started at 150 ms"),
        (3, records::shipped()[0].clone(), "event 3 is placed before event 2 in arbitration, though event 2 returned at 5 ms, before event 3 started at 6 ms"),
        (4, writes.clone(), "event 1 is placed before event 0 in arbitration, though event 0, a write, returned at 1 ms, before event 1 started at 2 ms"),
        (7, writes.clone(), "event 1 is placed before event 0 in arbitration, though both are writes at site 0 and event 0 is the earlier"),
        (8, followed, "event 2 is placed before event 0 in arbitration, though event 1, an earlier read at event 2's site, sees event 0"),
        (8, back.clone(), "arbitration would have to place event 1 before itself, as event 0, an earlier read at event 1's site, sees it"),
        (11, writes, "event 1 is placed before event 0 in arbitration, though event 0 is before event 1 at site 0"),
        (11, back, "arbitration would have to place event 0 before itself, as event 0 is before event 1 at site 0, which is seen by event 0"),
    ]
}

#[test]
fn each_predicate_has_a_sentence_for_its_break() {
    let cases = [of_values_and_orders(), of_missing_visibility(), of_long_chains(), of_arbitration()].concat();
    assert!({ PREDICATES }.all(|predicate| cases.iter().any(|case| case.0 == predicate)));
    for (predicate, record, sentence) in cases {
        let drawing = asked(predicate, &record);
        assert_eq!(drawing.joined("reason"), sentence);
        assert!(is_true(sentence, &record), "{sentence}");
        assert!(drawing.texts("said").iter().all(|note| sentence.starts_with(note)));
    }
}

/// The sentence and the note of a break, which must be there, and be true of the record.
fn told(drawing: &Drawing, record: &Record, (a, b): (usize, usize)) -> String {
    let sentence = drawing.joined("reason");
    assert!(is_true(&sentence, record), "{sentence}");
    assert!(sentence.contains(&format!("event {a}")) && sentence.contains(&format!("event {b}")), "{sentence}");
    let (arrows, notes) = (drawing.pairs("break"), drawing.texts("said"));
    assert!(arrows.iter().all(|&(from, to)| [(a, b), (b, a)].contains(&(from, to))));
    assert_eq!(notes.len(), usize::from(!arrows.is_empty()));
    assert!(notes.iter().all(|note| sentence.starts_with(note)));
    // Only a value that should be an opening or none has no second event to draw an arrow from.
    assert!(!arrows.is_empty() || sentence.contains("it sees no write"));
    sentence
}

fn pair(a: usize, b: usize) -> String {
    if a == b {
        format!("event {a}")
    } else {
        format!("events {a} and {b}")
    }
}

#[test]
fn a_pair_is_told_in_these_words() {
    assert_eq!(diagram::events(2, 0), "events 2 and 0");
    assert_eq!(diagram::events(1, 1), "event 1");
}

#[test]
fn the_sentences_are_true_of_random_records() {
    let mut breaks = [0; 13];
    for (_, record) in records::random() {
        let answers = Judged::new(&record).answers();
        for (predicate, answer) in PREDICATES.zip(answers) {
            let drawing = asked(predicate, &record);
            let Answer::Broken(a, b) = answer else {
                assert!(drawing.texts("met")[0].ends_with(" is met"));
                continue;
            };
            assert!(drawing.joined("broken").ends_with(&format!(" is broken at {}", pair(a, b))));
            told(&drawing, &record, (a, b));
            breaks[predicate as usize - 1] += 1;
        }
    }
    assert!(breaks.iter().all(|&count| count >= 10), "{breaks:?}");
}

#[test]
fn a_models_break_names_the_predicate_and_says_what_that_ones_does() {
    for (_, record) in records::random().step_by(3) {
        let answers = Judged::new(&record).answers();
        for (model, list) in (1..).zip(MODELS) {
            let Answer::Broken(a, b) = answer_of(model, &answers) else { continue };
            let first = list.iter().find(|&&each| answers[each as usize - 1] != Answer::Met).expect("one is broken");
            let drawing = asked_model(model, &record);
            let caption = drawing.joined("broken");
            assert!(caption.contains(&format!(" is broken by predicate {first} ")), "{caption}");
            assert!(caption.ends_with(&format!(" at {}", pair(a, b))), "{caption}");
            assert_eq!(told(&drawing, &record, (a, b)), asked(*first, &record).joined("reason"));
        }
    }
}

/// Everything of an event's mark but where it stands.
fn looks(drawing: &Drawing, event: usize) -> Vec<(String, String, Option<String>)> {
    let of_event = drawing.elements.iter().filter(|element| element.event == Some(event));
    of_event
        .map(|element| (element.name.clone(), element.class().to_string(), element.attributes.get("rx").cloned()))
        .collect()
}

#[test]
fn highlighted_marks_are_ringed_and_else_as_they_were() {
    for (_, record) in records::random() {
        let (plain, broken) = (plain(&record), asked(9, &record));
        for event in 0..record.events.len() {
            assert_eq!(looks(&plain, event), looks(&broken, event));
        }
        let rings = broken.named("rect").filter(|rect| rect.class() == "ring pair").count();
        assert_eq!(rings, if broken.pairs("break").is_empty() { 0 } else { 3 });
    }
}

#[test]
fn a_highlighted_read_and_a_highlighted_write_differ_in_shape_and_in_fill() {
    let drawing = asked(9, &records::write_then_read(false));
    let (write, read) = (looks(&drawing, 0), looks(&drawing, 1));
    assert_ne!(write[0].1, read[0].1);
    let round = |looks: &[(String, String, Option<String>)]| looks.iter().find(|part| part.1 == "body").cloned();
    assert_ne!(round(&write), round(&read));
    let style = &drawing.named("style").next().expect("a picture has one").text;
    let fill = |of: &str| style.lines().find(|line| line.starts_with(of)).expect("a rule").split("fill: ").nth(1);
    assert_ne!(fill(".write .body"), fill(".read .body"));
    // No rule of a highlighted mark overrides them.
    assert!(!style.lines().any(|line| line.starts_with(".pair") || line.contains(".ring .body")));
}
