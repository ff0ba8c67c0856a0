//! What is told of each predicate, by records worked out by hand, and how the call is refused.

use second::compare::subject::{Baseline, Explainer, Itself};
use second::explain::{explain_lent, explanations};
use second::generate::chains;
use second::limits::{ENTRIES, WORK_WORDS};
use second::models::{refused, REFUSED};
use second::questions::Refusal;
use second::reader::read;
use second::record::{seal, slot_mut, Event, Record};
use second::samples;

/// No event, and not zero.
const LENT: u16 = 7_777;

/// A subject's answer, and what of a slice it wrote. All else of the slice must be as it was.
fn told(subject: &dyn Explainer, predicate: u32, bytes: &[u8], entries: usize) -> (u64, Vec<u16>) {
    let mut events = vec![LENT; entries];
    let answer = subject.explain(predicate, bytes, &mut events);
    let written = if answer < REFUSED { answer as usize } else { 0 };
    assert!(events[written..].iter().all(|&entry| entry == LENT), "predicate {predicate}: {events:?}");
    (answer, events[..written].to_vec())
}

/// What the second checker tells of a break, and the baseline with it.
fn explained(record: &Record, predicate: u32) -> Vec<u16> {
    let (answer, events) = told(&Itself, predicate, &record.to_bytes(), ENTRIES);
    assert_eq!(answer as usize, events.len(), "predicate {predicate} is not broken");
    assert_eq!(told(&Baseline, predicate, &record.to_bytes(), ENTRIES), (answer, events.clone()));
    events
}

fn write(site: u8) -> Event {
    Event::write(site, 0, 1)
}

fn read_of(site: u8) -> Event {
    Event::read(site, 0, None)
}

/// Events that overlap, and see each other by these steps. They stand in arbitration as numbered.
fn by_vis(n: usize, steps: &[(usize, usize)]) -> Record {
    let mut events = vec![write(0).at(0, 9); n];
    steps.iter().for_each(|&(from, to)| events[to].visible[from] = true);
    Record::in_order(2, events)
}

/// Lets one event be so before another, both at site 1.
fn then(mut record: Record, from: usize, to: usize) -> Record {
    let events = &mut record.events;
    (events[from].site, events[from].start, events[from].end) = (1, 0, Some(3));
    (events[to].site, events[to].start, events[to].end) = (1, 4, Some(9));
    record
}

#[test]
fn a_pair_alone_is_told_by_its_second_event() {
    let wrong_value =
        vec![write(0).at(0, 9), Event::write(0, 0, 8).at(0, 9).sees(&[0]), Event::read(0, 0, Some(1)).sees(&[0, 1])];
    assert_eq!(explained(&Record::in_order(1, wrong_value), 1), [1]);
    let zero_for_none = vec![write(0), write(0), Event::read(1, 3, Some(0))];
    assert_eq!(explained(&Record::in_order(2, zero_for_none), 1), [2]);
    assert_eq!(explained(&by_vis(3, &[(0, 1), (1, 2)]), 2), [2]);
    let of_objects = vec![write(0).at(0, 9), Event::write(0, 1, 1).at(0, 9), write(0).at(0, 9)];
    assert_eq!(explained(&Record::in_order(1, of_objects), 13), [2]);
}

#[test]
fn inclusions_of_times_are_told_by_their_second_event() {
    let in_turn = |events: [Event; 3]| {
        let events = (0..).zip(events).map(|(k, event)| event.at(2 * k, 2 * k + 1)).collect();
        Record::in_order(1, events).with_positions(&[2, 1, 0])
    };
    let writes = in_turn([write(0), write(0), write(0)]);
    for predicate in [3, 4, 7, 9, 12] {
        assert_eq!(explained(&writes, predicate), [1], "predicate {predicate}");
    }
    assert_eq!(explained(&in_turn([read_of(0), write(0), write(0)]), 4), [2]);
    assert_eq!(explained(&in_turn([write(0), write(0), read_of(0)]), 6), [2]);
}

/// Write 0 is seen by some of the events of site 1 that return before the last of them starts.
fn with_middles(middles: &[Event], last: Event) -> Record {
    let middles = middles.iter().map(|event| Event { site: 1, ..event.clone() }.at(0, 3));
    let events: Vec<Event> = [write(0).at(0, 9)].into_iter().chain(middles).chain([last.at(4, 9)]).collect();
    let last_first: Vec<u16> = (0..events.len() as u16).map(|k| (k + 1) % events.len() as u16).collect();
    Record::in_order(2, events).with_positions(&last_first)
}

#[test]
fn the_lowest_middle_event_is_told() {
    let seeing = |event: Event| event.sees(&[0]);
    for (last, predicate) in [(read_of(1), 5), (write(1), 8)] {
        let of = |middles: &[Event]| explained(&with_middles(middles, last.clone()), predicate);
        assert_eq!(of(&[seeing(read_of(1))]), [1, 2]);
        assert_eq!(of(&[seeing(read_of(1)), seeing(read_of(1)), read_of(1)]), [1, 4]);
        assert_eq!(of(&[seeing(write(1)), read_of(1), seeing(read_of(1)), seeing(read_of(1))]), [3, 5]);
    }
}

/// A lower read that sees the write and has not returned, one of another site, and one that starts too late.
#[test]
fn a_middle_event_is_so_before_the_last() {
    let mut record = with_middles(&vec![read_of(1).sees(&[0]); 4], read_of(1));
    record.events[1].end = None;
    record.events[2].site = 0;
    record.events[3].end = Some(4);
    assert_eq!(explained(&record, 5), [4, 5]);
}

/// What sees an event is so before it.
#[test]
fn a_middle_event_may_lead_back() {
    let events = vec![read_of(0).at(4, 5), read_of(0).at(0, 1).sees(&[0])];
    assert_eq!(explained(&Record::in_order(1, events), 5), [1, 0]);
    let events = vec![write(0).at(4, 5), Event::read(0, 0, Some(1)).at(0, 1).sees(&[0])];
    assert_eq!(explained(&Record::in_order(1, events), 8), [1, 0]);
}

#[test]
fn chains_go_by_so_and_by_vis() {
    assert_eq!(explained(&by_vis(3, &[(0, 1), (1, 2)]), 10), [1, 2]);
    assert_eq!(explained(&then(by_vis(2, &[]), 0, 1), 10), [1]);
    assert_eq!(explained(&then(by_vis(3, &[(0, 1)]), 1, 2), 10), [1, 2]);
    assert_eq!(explained(&then(by_vis(3, &[(2, 1)]), 0, 2), 10), [2, 1]);
    let seen_across = then(by_vis(4, &[(0, 2), (3, 1)]), 2, 3);
    assert_eq!(explained(&seen_across, 10), [2, 3, 1]);
    assert_eq!(explained(&seen_across.with_positions(&[1, 0, 2, 3]), 11), [2, 3, 1]);
}

/// The paper's: 0 so 1 while 0 sees 1.
#[test]
fn a_ring_is_told_with_a_last() {
    let ring_of_two = then(by_vis(2, &[(1, 0)]), 0, 1);
    let ring_of_three = then(by_vis(3, &[(0, 2), (2, 1)]), 1, 0);
    for predicate in [10, 11] {
        assert_eq!(explained(&ring_of_two, predicate), [1, 0]);
        assert_eq!(explained(&ring_of_three, predicate), [2, 1, 0]);
    }
    // Two rings through 0: the shorter one counts, though the other has the lower next event.
    let two_rings = then(by_vis(4, &[(0, 1), (1, 2), (2, 3), (0, 3)]), 3, 0);
    assert_eq!(explained(&two_rings, 10), [3, 0]);
}

/// From 0 to 1, by layers.
#[test]
fn of_equally_short_chains_each_next_event_is_the_lowest() {
    let told = |n, steps: &[(usize, usize)]| explained(&by_vis(n, steps).with_positions(&back(n)), 11);
    assert_eq!(told(4, &[(0, 2), (0, 3), (2, 1), (3, 1)]), [2, 1]);
    // The lowest next event leads on by a higher one.
    assert_eq!(told(6, &[(0, 2), (0, 3), (2, 5), (3, 4), (5, 1), (4, 1)]), [2, 5, 1]);
    // The lowest next event leads to a longer chain, or away.
    assert_eq!(told(5, &[(0, 2), (2, 3), (3, 1), (0, 4), (4, 1)]), [4, 1]);
    assert_eq!(told(4, &[(0, 2), (0, 3), (3, 1)]), [3, 1]);
    // A lower event comes before a higher one on the longer way.
    assert_eq!(told(6, &[(0, 5), (5, 2), (5, 4), (2, 3), (3, 1), (4, 1)]), [5, 4, 1]);
}

/// Event 1 first, so that 11 breaks at it.
fn back(n: usize) -> Vec<u16> {
    [1, 0].into_iter().chain(2..n as u16).collect()
}

/// As long as there can be: through every event, once to another and once round.
#[test]
fn fixed_chains_are_as_long_as_they_are_named() {
    let all = chains::fixed();
    let steps = |name: &str, predicate: usize| {
        let (_, bytes) = all.iter().find(|fixed| fixed.0 == name).expect("is there");
        let explanations = explanations(bytes).expect("passes");
        explanations[predicate - 1].as_ref().expect("broken").events.len()
    };
    for sort in ["rising", "falling", "back"] {
        for predicate in [10, 11] {
            let of = |name: &str| steps(&format!("{name}-{sort}"), predicate);
            assert_eq!(["chain-of-255", "chain-by-so-too"].map(of), [255; 2]);
            assert_eq!(["ring-of-256", "ring-by-so-too"].map(of), [256; 2]);
            assert_eq!(["ring-of-2", "ring-of-3", "round-ladder"].map(of), [2, 3, 64]);
            assert_eq!(["narrow-ladder", "wide-ladder", "ladder-of-two-steps"].map(of), [128, 6, 2]);
            assert_eq!(["chain-of-256", "ring-of-257"].map(of), [256, 257]);
            assert_eq!(["chain-of-383", "longest-chain-by-so-too"].map(of), [383; 2]);
            assert_eq!(["ring-of-384", "longest-ring-by-so-too"].map(of), [384; 2]);
            assert_eq!(["longest-narrow-ladder", "widest-ladder-of-two-steps"].map(of), [192, 2]);
            assert_eq!(of("longest-round-ladder"), 96);
        }
    }
}

fn refusal(number: u32, place: u32) -> (u64, Vec<u16>) {
    (refused(Refusal { number, place }), vec![])
}

/// What refuses a record, with the place: each of 3 to 10, and 42, as all is met.
fn records() -> Vec<((u32, u32), Vec<u8>)> {
    let named = |name: &str| samples::samples().into_iter().find(|sample| sample.name == name).expect("there").bytes;
    vec![
        ((3, 0), vec![]),
        ((4, 37), named("refused-4-high.gcr")),
        ((5, 0), named("refused-5-n-257.gcr")),
        ((6, 0), named("refused-6-too-few.gcr")),
        ((7, 255), named("refused-7-high.gcr")),
        ((8, 255), named("refused-8-high.gcr")),
        ((9, 254), named("refused-9-high.gcr")),
        ((10, 254), named("refused-10-high.gcr")),
        ((42, 0), named("in-turn-256.gcr")),
        ((4, 64), named("refused-4-gcr3-high.gcr")),
        ((7, 383), named("refused-7-gcr3-tail-507.gcr")),
        ((10, 382), named("refused-10-gcr3-high.gcr")),
        ((42, 0), named("in-turn-384.gcr")),
    ]
}

#[test]
fn refusals_come_in_their_order() {
    for subject in [&Itself as &dyn Explainer, &Baseline] {
        for ((number, place), bytes) in records() {
            let of_record = refusal(number, place);
            for number in [0, 14, 255, 256, u32::MAX] {
                assert_eq!(told(subject, number, &bytes, 0), refusal(2, 0));
                assert_eq!(told(subject, number, &bytes, 400), refusal(2, 0));
            }
            for predicate in [1, 5, 10, 13] {
                for entries in [0, 1, 256, 383] {
                    assert_eq!(told(subject, predicate, &bytes, entries), refusal(41, 0));
                }
                for entries in [384, 385, 400] {
                    assert_eq!(told(subject, predicate, &bytes, entries), of_record);
                }
            }
        }
    }
}

/// A slice that would hold what is told is too short all the same.
#[test]
fn a_short_slice_is_refused_whatever_is_told() {
    let bytes = by_vis(3, &[(0, 1), (1, 2)]).to_bytes();
    assert_eq!(told(&Itself, 10, &bytes, 383), refusal(41, 0));
    assert_eq!(told(&Itself, 10, &bytes, 384), (2, vec![1, 2]));
    assert_eq!(told(&Itself, 10, &bytes, 1_000), (2, vec![1, 2]));
}

/// The answer with a lent work slice, and the slice afterwards.
fn lent(predicate: u32, bytes: &[u8], words: usize, entries: usize) -> (u64, Vec<u64>) {
    let (mut work, mut events) = (vec![5; words], vec![LENT; entries]);
    let answer = explain_lent(predicate, bytes, &mut work, &mut events);
    (answer, work)
}

/// Words of a slice that is longer than it need be.
const MORE: usize = WORK_WORDS + 6;

#[test]
fn a_lent_work_slice_is_asked_for_first_and_holds_the_visible_sets() {
    let bytes = by_vis(3, &[(0, 1), (1, 2)]).to_bytes();
    let (mut broken, mut visible) = (bytes.clone(), vec![5; MORE]);
    read(&bytes, &mut visible);
    assert_eq!(lent(0, &[], WORK_WORDS - 1, 0), (refusal(1, 0).0, vec![5; WORK_WORDS - 1]));
    assert_eq!(lent(0, &[], MORE, 0), (refusal(2, 0).0, vec![5; MORE]));
    assert_eq!(lent(10, &[], MORE, 383), (refusal(41, 0).0, vec![5; MORE]));
    assert_eq!(lent(10, &bytes, MORE, 384), (2, visible.clone()));
    assert_eq!(lent(3, &bytes, MORE, 384), (refusal(42, 0).0, visible));
    slot_mut(&mut broken, 0)[32] = 2;
    seal(&mut broken);
    let zeros = [vec![0; WORK_WORDS], vec![5; 6]].concat();
    assert_eq!(lent(10, &broken, MORE, 384), (refusal(10, 0).0, zeros));
}
