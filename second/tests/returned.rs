//! Change 5, never returned: rb by its three cases, and what a number in the place of a missing return would do.

use second::baseline::judging;
use second::compare::returned::EDGES;
use second::generate::sweeps;
use second::models::{judged, refused};
use second::predicates::Answer::{self, Broken, Met};
use second::predicates::Judged;
use second::questions::{ask, Refusal};
use second::record::*;
use second::relations::{returned_before, Relations};

const LAST: u64 = u64::MAX;
const WIDE: u64 = u32::MAX as u64;

/// Both ends of what the fields carry, and what lies around the largest difference.
const TIMES: [u64; 14] = [
    0,
    1,
    2,
    WIDE - 1,
    WIDE,
    WIDE + 1,
    LAST - WIDE - 1,
    LAST - WIDE,
    LAST - WIDE + 1,
    LAST - 3,
    LAST - 2,
    LAST - 1,
    LAST,
    7,
];
const DIFFERENCES: [u32; 5] = [0, 1, 2, u32::MAX - 1, u32::MAX];

/// Whether rb holds, which by 3, by 4, and by the baseline must be the same: the two stand against arbitration.
fn before(difference: u32, a: Event, b: Event) -> bool {
    let record = Record::in_order(2, vec![a, b]).with_positions(&[1, 0]).apart(difference);
    let before = returned_before(difference, &record.events[0], &record.events[1]);
    let (bytes, due) = (record.to_bytes(), if before { Broken(0, 1) } else { Met });
    let read = ask(&bytes).expect("passes every question");
    for predicate in [3, 4] {
        assert_eq!(Judged::new(&read).answer(predicate), due, "{record:?}");
        assert_eq!(judging::judge_predicate(predicate, &bytes), judged(due), "{record:?}");
    }
    before
}

fn later(site: u8, start: u64) -> Event {
    Event::write(site, 0, 2).at(start, LAST)
}

/// All starts of the second event, with all differences.
fn each(mut check: impl FnMut(u64, u32)) {
    TIMES.iter().for_each(|&start| DIFFERENCES.iter().for_each(|&difference| check(start, difference)));
}

#[test]
fn pending_is_before_nothing() {
    each(|start, difference| {
        for (site, from) in [(0, 0), (1, 0), (0, LAST), (1, LAST)] {
            assert!(!before(difference, Event::write(0, 0, 1).pending_from(from), later(site, start)));
        }
    });
}

/// Whatever the difference.
#[test]
fn same_site_where_the_return_is_below_the_start() {
    each(|start, difference| {
        for end in TIMES {
            assert_eq!(before(difference, Event::write(0, 0, 1).at(0, end), later(0, start)), end < start);
        }
    });
}

/// Back from the start, which forms no sum: where there is no such time, no return is below it.
#[test]
fn other_site_where_the_sum_is_below_the_start() {
    each(|start, difference| {
        let latest = start.checked_sub(difference.into());
        for end in TIMES {
            let due = latest.is_some_and(|latest| end < latest);
            assert_eq!(before(difference, Event::write(0, 0, 1).at(0, end), later(1, start)), due);
        }
    });
}

#[test]
fn largest_times_and_difference() {
    let before = |site, end, start| before(u32::MAX, Event::write(0, 0, 1).at(0, end), later(site, start));
    assert_eq!([LAST - 2, LAST - 1, LAST].map(|end| before(0, end, LAST - 1)), [true, false, false]);
    assert_eq!([LAST - 2, LAST - 1, LAST].map(|end| before(0, end, LAST)), [true, true, false]);
    let around = [LAST - WIDE - 1, LAST - WIDE, LAST - WIDE + 1, LAST];
    assert_eq!(around.map(|end| before(1, end, LAST)), [true, false, false, false]);
}

fn three_to_twelve(record: &Record, before: impl Fn(&Event, &Event) -> bool) -> Vec<Answer> {
    Judged::by(record, Relations::by(record, before)).answers()[2..12].to_vec()
}

/// A rule by which a pending event returned at some time.
fn returned_at(end: u64) -> impl Fn(&Event, &Event) -> bool {
    move |a, b| returned_before(0, &Event { end: Some(a.end.unwrap_or(end)), ..a.clone() }, b)
}

#[test]
fn numbers_in_the_place_of_a_return_break_what_is_met() {
    for (name, bytes) in sweeps::never_returned() {
        let record = ask(&bytes).expect("passes every question");
        assert_eq!(Judged::new(&record).answers()[2..12], [Met; 10], "{name}");
        let start = record.events[4].start;
        let broken = |answers: Vec<Answer>| (3..=12).filter(|at| answers[at - 3] != Met).collect::<Vec<_>>();
        let all = match name.contains("last") {
            true => vec![3, 4, 5, 6, 7, 8, 9, 10, 11, 12],
            false => vec![3, 5, 6, 8, 9, 10, 11, 12],
        };
        let at_0 = if start > 0 { all.clone() } else { vec![] };
        assert_eq!(broken(three_to_twelve(&record, returned_at(0))), at_0, "{name}");
        assert_eq!(broken(three_to_twelve(&record, |a, b| a.pending() && !b.pending())), all, "{name}");
        assert_eq!(broken(three_to_twelve(&record, returned_at(LAST))), [], "{name}: no start is after it");
    }
}

/// Where rb is the other way round on the pairs of one edge, some fixed record of the comparers has another answer.
#[test]
fn fixed_records_tell_each_edge() {
    let fixed: Vec<Record> = [sweeps::clocks(), sweeps::never_returned()]
        .concat()
        .iter()
        .map(|(_, bytes)| ask(bytes).expect("passes"))
        .collect();
    for edge in &EDGES {
        assert!(fixed.iter().any(|record| Judged::new(record).answers() != edge.turned(record)), "{}", edge.row.0);
    }
}

/// Seven events, of which one slot is changed; gives what refuses it, which the baseline must find too.
fn refusal(event: usize, change: impl FnOnce(&mut [u8])) -> Option<(u32, u32)> {
    let events = (0..7).map(|k| Event::write(0, 0, 1).at(10 + k, 20)).collect();
    let mut bytes = Record::in_order(1, events).to_bytes();
    change(slot_mut(&mut bytes, event));
    seal(&mut bytes);
    let refusal = ask(&bytes).err();
    let host = judging::judge_model(4, &bytes);
    assert_eq!(host >= 2_097_152, refusal.is_some());
    assert!(refusal.is_none_or(|refusal| refused(refusal) == host));
    refusal.map(|Refusal { number, place }| (number, place))
}

#[test]
fn state_and_return_go_together() {
    for event in [0, 6] {
        let refusal = |state: u8, end: u64| {
            refusal(event, |slot| {
                slot[3] = state;
                slot[24..32].copy_from_slice(&end.to_le_bytes());
            })
        };
        let wrong = Some((7, event as u32));
        assert_eq!([0, 1, 20, LAST].map(|end| refusal(1, end)), [None, wrong, wrong, wrong]);
        let start = 10 + event as u64;
        assert_eq!([0, start - 1, start, LAST].map(|end| refusal(0, end)), [wrong, wrong, None, None]);
        assert_eq!([0, 20, LAST].map(|end| refusal(2, end)), [wrong; 3]);
    }
}

/// The state alone says that there is no return.
#[test]
fn pending_events_have_no_return() {
    let pending = Event::write(0, 0, 1).at(3, 9).pending_from(4);
    assert_eq!(
        (pending.end, u64_at(&pending.to_slot(Edition::GCR1), 24), pending.to_slot(Edition::GCR1)[3]),
        (None, 0, 1)
    );
    assert_eq!(Event::from_slot(&pending.to_slot(Edition::GCR1)), pending);
    let at_0 = Event::write(0, 0, 1).at(0, 0);
    assert_eq!(Event::from_slot(&at_0.to_slot(Edition::GCR3)).end, Some(0));
}
