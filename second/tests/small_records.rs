//! All records of three events of a few shapes: none goes against what covers what, and they keep all others apart.

use second::generate::shapes::hold_right_value;
use second::lattice::{apart, covered, keeps_apart};
use second::predicates::{Answer, Judged};
use second::record::{Event, Record};
use std::collections::BTreeSet;

/// One after another, over all of that time, and without an end.
const TIMES: [(u64, Option<u64>); 5] = [(0, Some(1)), (2, Some(3)), (4, Some(5)), (0, Some(5)), (0, None)];

/// A read or a write, at one of two sites, of one of two objects, at one of these times.
fn event(shape: usize) -> Event {
    let (kind, place, time) = (shape % 2, shape / 2 % 4, shape / 8);
    let (site, object) = ((place % 2) as u8, (place / 2) as u8);
    let event = if kind == 0 { Event::read(site, object, None) } else { Event::write(site, object, shape as u32) };
    Event { start: TIMES[time].0, end: TIMES[time].1, ..event }
}

const SHAPES: usize = 2 * 4 * TIMES.len();

/// The six ordered pairs of three events.
const PAIRS: [(usize, usize); 6] = [(0, 1), (1, 2), (2, 0), (1, 0), (2, 1), (0, 2)];

/// Who sees whom, as one bit a pair; those in which nothing leads back to where it began.
fn without_rings() -> Vec<[EventsSeen; 3]> {
    let ring = |bits: usize| {
        let both_ways = (0..3).any(|at| bits >> at & bits >> (at + 3) & 1 == 1);
        both_ways || bits & 7 == 7 || bits >> 3 == 7
    };
    (0..64).filter(|&bits| !ring(bits)).map(seen).collect()
}

type EventsSeen = Vec<usize>;

fn seen(bits: usize) -> [EventsSeen; 3] {
    let of = |b| (0..6).filter(|at| bits >> at & 1 == 1 && PAIRS[*at].1 == b).map(|at| PAIRS[at].0).collect();
    [of(0), of(1), of(2)]
}

/// The first event is at site 0 and of object 0: the others would only be renamed.
fn each_record(mut take: impl FnMut(&Record)) {
    let firsts = (0..SHAPES).filter(|shape| shape / 2 % 4 == 0);
    let without_rings = without_rings();
    for shapes in firsts.flat_map(|a| (0..SHAPES).flat_map(move |b| (0..SHAPES).map(move |c| [a, b, c]))) {
        for seen in &without_rings {
            let events = shapes.iter().zip(seen).map(|(&shape, seen)| event(shape).sees(seen)).collect();
            let mut record = Record::in_order(2, events);
            (0..3).for_each(|event| hold_right_value(&mut record, event));
            take(&record);
        }
    }
}

#[test]
fn small_records_keep_apart_what_is_not_covered() {
    let mut told: BTreeSet<Vec<bool>> = BTreeSet::new();
    let mut records = 0;
    each_record(|record| {
        records += 1;
        told.insert(Judged::new(record).answers().iter().map(|&answer| answer == Answer::Met).collect());
    });
    assert_eq!(records, 400_000);
    let as_answer = |&met: &bool| if met { Answer::Met } else { Answer::Broken(0, 0) };
    let told: Vec<Vec<Answer>> = told.iter().map(|met| met.iter().map(as_answer).collect()).collect();
    let some = |(i, j): (u32, u32)| told.iter().any(|answers| keeps_apart(answers, i, j));
    assert!(!covered().any(some));
    assert!(apart().all(some));
}
