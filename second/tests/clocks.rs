//! Change 4, site clocks: the bytes of a difference, which event returned before which, and what goes by it.

mod calls;

use calls::{deliver, get, put, run};
use second::generate::random::Random;
use second::generate::shapes;
use second::models::judge_model;
use second::openings::Openings;
use second::predicates::Answer::{self, Broken, Met};
use second::predicates::Judged;
use second::questions::{ask, Refusal};
use second::record::*;
use second::relations::returned_before;

const LAST: u64 = u64::MAX;
const MOST: u32 = u32::MAX;

fn answers(record: &Record) -> Vec<Answer> {
    let read = ask(&record.to_bytes()).expect("passes every question");
    assert_eq!(&read, record, "bytes and events say the same");
    Judged::new(record).answers()
}

/// Whether a write that returned at `end` is before one of another site that starts at `start`.
fn before(end: u64, difference: u32, start: u64) -> bool {
    let events = vec![Event::write(0, 0, 1).at(0, end), Event::write(1, 0, 2).at(start, LAST)];
    let record = Record::in_order(2, events).with_positions(&[1, 0]).apart(difference);
    let answers = answers(&record);
    assert_eq!(answers[2], answers[3], "both begin with a write");
    assert_eq!(answers[2] == Broken(0, 1), returned_before(difference, &record.events[0], &record.events[1]));
    answers[2] != Met
}

#[test]
fn bytes_of_a_difference() {
    let openings = Openings::none().with(0, 40);
    for difference in [0, 1, 0x0403_0201, 1 << 31, MOST] {
        let record = Record::in_order(1, vec![]).opened(openings).apart(difference);
        let bytes = record.to_bytes();
        assert_eq!(bytes[DIFFERENCE_AT], difference.to_le_bytes());
        assert_eq!(bytes[OPENINGS_AT], openings.to_bytes());
        let record = ask(&bytes).expect("any difference passes");
        assert_eq!((record.edition, record.difference, record.openings), (Edition::GCR2, difference, openings));
    }
}

#[test]
fn first_edition_has_no_difference() {
    for at in DIFFERENCE_AT {
        let mut bytes = Record::in_order(1, vec![]).to_bytes();
        bytes[at] = 1;
        assert_eq!(ask(&bytes), Err(Refusal { number: 4, place: 0 }), "byte {at}, not sealed");
        seal(&mut bytes);
        assert_eq!(ask(&bytes), Err(Refusal { number: 5, place: 0 }), "byte {at}");
        bytes[3] = b'2';
        seal(&mut bytes);
        assert_eq!(ask(&bytes).expect("passes").difference, 1 << (8 * (at - 8)));
    }
    assert_eq!(Record::in_order(1, vec![]).difference, 0);
}

#[test]
fn between_sites() {
    assert_eq!([5, 6].map(|start| before(5, 0, start)), [false, true]);
    assert_eq!([5, 6, 7, 8].map(|start| before(5, 2, start)), [false, false, false, true]);
    for difference in [1, 2, 1_000, 1 << 31, MOST] {
        let sum = 5 + difference as u64;
        assert_eq!([sum - 1, sum, sum + 1].map(|start| before(5, difference, start)), [false, false, true]);
    }
}

#[test]
fn at_both_ends_of_time() {
    for difference in [1, 2, MOST] {
        let wide = difference as u64;
        assert!(before(LAST - wide - 1, difference, LAST));
        assert!(!before(LAST - wide, difference, LAST), "the sum is the largest number");
        assert!(!before(LAST - wide + 1, difference, LAST), "the sum does not wrap to 0");
        assert!(!before(LAST, difference, LAST));
        assert!(!before(0, difference, 0) && !before(0, difference, wide), "no start is moved below 0");
        assert!(before(0, difference, wide + 1));
    }
}

/// An event of each site, then two of site 1, all within the difference; arbitration has them the other way.
#[test]
fn at_one_site_as_before() {
    let events = vec![
        Event::write(0, 0, 1).at(0, 1),
        Event::read(1, 0, None).at(2, 3),
        Event::write(1, 0, 2).at(3, 3),
        Event::read(1, 0, None).at(4, 5),
    ];
    let record = Record::in_order(2, events).with_positions(&[3, 2, 1, 0]);
    let of = |difference| answers(&record.clone().apart(difference))[2..4].to_vec();
    assert_eq!(of(0), [Broken(0, 1), Broken(0, 1)]);
    assert_eq!(of(1), [Broken(0, 2), Broken(0, 2)]);
    assert_eq!(of(2), [Broken(0, 3), Broken(0, 3)]);
    assert_eq!(of(3), [Broken(1, 3), Broken(2, 3)]);
    assert_eq!(of(MOST), [Broken(1, 3), Broken(2, 3)]);
}

#[test]
fn pending_events_are_before_nothing() {
    let events = vec![Event::write(0, 0, 1).pending_from(0), Event::write(1, 0, 2).at(9, 9)];
    let record = Record::in_order(2, events).with_positions(&[1, 0]);
    for difference in [0, 1, 8, 9, MOST] {
        assert_eq!(answers(&record.clone().apart(difference))[2..4], [Met; 2]);
    }
}

#[test]
fn real_time_writes_begin_with_a_write() {
    let events =
        vec![Event::read(0, 0, None).at(0, 1), Event::write(1, 0, 2).at(9, 9), Event::read(0, 0, None).at(12, 12)];
    let record = Record::in_order(2, events).with_positions(&[2, 1, 0]);
    let of = |difference| answers(&record.clone().apart(difference))[2..4].to_vec();
    assert_eq!(of(2), [Broken(0, 1), Broken(1, 2)]);
    assert_eq!(of(3), [Broken(0, 1), Met]);
    assert_eq!(of(8), [Broken(0, 2), Met]);
}

/// Two sites whose clocks are far apart: what one site did in order stays so, hb with it.
#[test]
fn session_order_goes_by_one_clock() {
    let events = vec![
        Event::write(0, 0, 1).at(0, 1),
        Event::write(0, 0, 2).at(2, 3),
        Event::read(1, 0, Some(2)).at(2, 3).sees(&[1]),
        Event::read(1, 0, Some(1)).at(4, 5).sees(&[0, 2]),
    ];
    let record = Record::in_order(2, events);
    let answers = answers(&record.apart(MOST));
    assert_eq!([5, 9, 10, 12].map(|predicate| answers[predicate - 1]), {
        [Broken(1, 3), Broken(0, 1), Broken(0, 1), Broken(0, 1)]
    });
}

#[test]
fn models_go_by_the_difference() {
    let events = vec![Event::write(0, 0, 7).at(0, 10).sees(&[1]), Event::read(1, 0, None).at(15, 16)];
    let record = Record::in_order(2, events).with_positions(&[1, 0]);
    for model in 1..=13 {
        let of = |difference| judge_model(model, &record.clone().apart(difference).to_bytes());
        let due = if [1, 2, 5].contains(&model) { [1_048_577, 1_048_577, 0] } else { [0; 3] };
        assert_eq!([0, 4, 5].map(of), due, "model {model}");
        assert_eq!(judge_model(model, &record.to_bytes()), due[0], "model {model} of GCR1");
    }
}

/// And a larger one breaks 3 or 4 no sooner.
#[test]
fn other_predicates_do_not_look_at_the_difference() {
    let rank = |answer: &Answer| match *answer {
        Broken(a, b) => (a, b),
        Met => (usize::MAX, 0),
    };
    for seed in 0..300 {
        let mut random = Random::new(seed);
        let n = random.index(20);
        let record = shapes::of_any_edition(&mut random, n);
        let old = record.clone().in_edition(Edition::GCR1);
        assert_eq!(answers(&old), answers(&old.clone().apart(0)), "seed {seed}");
        let mut smaller = answers(&record.clone().apart(0));
        for difference in [1, 2, 5, 1 << 31, MOST] {
            let larger = answers(&record.clone().apart(difference));
            assert_eq!((&smaller[..2], &smaller[4..]), (&larger[..2], &larger[4..]), "seed {seed}");
            assert!((2..4).all(|at| rank(&smaller[at]) <= rank(&larger[at])), "seed {seed}, {difference}");
            smaller = larger;
        }
    }
}

#[test]
fn rehearsals_write_0() {
    let (_, store) = run(2, &[put(0, 0, 1), deliver(0, 1), get(1, 0)]);
    assert_eq!(store.record().difference, 0);
    assert_eq!(store.record().to_bytes()[DIFFERENCE_AT], [0; 4]);
}
