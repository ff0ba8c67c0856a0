//! What is told of a break: a chain, a middle event and the pair's second, or the second alone.

mod changing;
mod sealing;

use changing::changed;
use gcr::{explain, judge_predicate, Edition, Event, Predicate, Record, Refusal, Verdict};

/// Six events of two sites. Event 1 is before event 0 in arbitration.
const OPENING: &[u8] = include_bytes!("../../../records/opening.gcr");

/// A predicate that is broken, and what is told of it.
type Told = (u32, &'static [u16]);

/// The records of the repository, each with its breaks.
const TOLD: [(&str, &[Told]); 17] = [
    ("clocks", &[]),
    ("early-read", &[(3, &[1]), (4, &[1])]),
    ("empty-one-site", &[]),
    ("listing", &[(2, &[1]), (3, &[3]), (13, &[1])]),
    ("never-returned", &[]),
    ("opening", &[(2, &[0]), (3, &[1]), (13, &[0])]),
    ("separating-1", &[(3, &[1]), (4, &[1])]),
    ("separating-2", &[(2, &[1]), (13, &[1])]),
    // Read 2 is after read 1 at its site and does not see write 0, which read 1 sees.
    ("separating-3", &[(2, &[2]), (5, &[1, 2]), (10, &[1, 2])]),
    // Write 2 sees write 0, so that its chain of 11 is one step; between the two is a read for 8.
    ("separating-4", &[(2, &[2]), (3, &[2]), (4, &[2]), (7, &[2]), (8, &[1, 2]), (11, &[2])]),
    // Read 1 sees write 0, read 2 comes after it at its site, and write 0 sees read 2: a ring.
    ("separating-5", &[(3, &[2]), (5, &[1, 2]), (9, &[2]), (10, &[1, 2, 0]), (11, &[1, 2, 0]), (12, &[2])]),
    ("separating-6", &[(3, &[2]), (8, &[1, 2]), (9, &[2]), (10, &[1, 2]), (11, &[1, 2]), (12, &[2])]),
    ("separating-7", &[(2, &[1]), (6, &[1]), (9, &[1]), (10, &[1])]),
    (
        "separating-8",
        &[(2, &[0]), (3, &[1]), (4, &[1]), (7, &[1]), (9, &[1]), (10, &[1]), (11, &[1]), (12, &[1]), (13, &[0])],
    ),
    ("stale-opening", &[(1, &[0])]),
    ("stale-read", &[(2, &[2]), (5, &[1, 2]), (10, &[1, 2]), (13, &[2])]),
    ("stale-value", &[(1, &[1])]),
];

fn record(name: &str) -> Vec<u8> {
    std::fs::read(format!("{}/../../records/{name}.gcr", env!("CARGO_MANIFEST_DIR"))).expect("it is there")
}

fn refused(number: u32, place: u32) -> Result<Vec<u16>, Refusal> {
    Err(Refusal { number, place })
}

#[test]
fn each_break_of_the_records_is_told_and_what_is_met_is_refused_by_42() {
    for (name, breaks) in TOLD {
        for &predicate in Predicate::ALL {
            let told = breaks.iter().find(|told| told.0 == predicate.number());
            let due = told.map_or(refused(42, 0), |told| Ok(told.1.to_vec()));
            assert_eq!(explain(predicate, &record(name)), due, "{predicate} of {name}");
        }
    }
}

#[test]
fn the_last_event_is_the_second_of_the_pair_that_the_judge_names() {
    for (name, _) in TOLD {
        for &predicate in Predicate::ALL {
            let last = explain(predicate, &record(name)).ok().and_then(|events| events.last().copied());
            let second = match judge_predicate(predicate, &record(name)).expect("it passes") {
                Verdict::Met => None,
                Verdict::Broken { b, .. } => Some(b),
            };
            assert_eq!(last, second, "{predicate} of {name}");
        }
    }
}

#[test]
fn a_refused_record_is_not_explained() {
    let mut damaged = OPENING.to_vec();
    damaged[600] ^= 1;
    // Events 4 and 5 see each other.
    let ring = changed(OPENING, &seeing(4, &[5]));
    for &predicate in Predicate::ALL {
        assert_eq!(explain(predicate, &[]), refused(3, 0));
        assert_eq!(explain(predicate, &damaged), refused(4, 1));
        assert_eq!(explain(predicate, &OPENING[..512]), refused(6, 0));
        assert_eq!(explain(predicate, &ring), refused(10, 4));
    }
}

/// What makes these all that an event sees.
fn seeing(event: usize, seen: &[usize]) -> [(usize, usize, u64); 4] {
    let word = |k: usize| seen.iter().filter(|&&of| of / 64 == k).fold(0, |word, of| word | 1 << (of % 64));
    [0, 1, 2, 3].map(|k| (event, 32 + 8 * k, word(k)))
}

/// What makes an event's times these.
fn lasting(event: usize, start: u64, end: u64) -> [(usize, usize, u64); 2] {
    [(event, 16, start), (event, 24, end)]
}

/// Six events that overlap in time, so that steps are by visibility alone: from the first of each of these pairs to its
/// second.
fn by_steps(steps: &[(usize, usize)]) -> Vec<u8> {
    let before = |event| steps.iter().filter(move |step| step.1 == event).map(|step| step.0);
    let event = |event| [&seeing(event, &before(event).collect::<Vec<_>>())[..], &lasting(event, 0, 9)].concat();
    changed(OPENING, &(0..6).flat_map(event).collect::<Vec<_>>())
}

/// Of a record whose pair is (0, 1) in both.
fn chain(record: &[u8]) -> Vec<u16> {
    let causal = [Predicate::CausalVisibility, Predicate::CausalArbitration];
    for predicate in causal {
        assert_eq!(judge_predicate(predicate, record), Ok(Verdict::Broken { a: 0, b: 1 }), "{predicate}");
    }
    let [first, second] = causal.map(|predicate| explain(predicate, record).expect("it is broken"));
    assert_eq!(first, second);
    first
}

#[test]
fn a_chain_has_as_few_steps_as_there_can_be() {
    assert_eq!(chain(&by_steps(&[(0, 2), (2, 3), (3, 1), (0, 4), (4, 1)])), [4, 1]);
    assert_eq!(chain(&by_steps(&[(0, 5), (5, 4), (4, 3), (3, 2), (2, 1)])), [5, 4, 3, 2, 1]);
    assert_eq!(chain(&by_steps(&[(0, 5), (5, 4), (4, 3), (3, 2), (2, 1), (5, 2)])), [5, 2, 1]);
}

#[test]
fn of_equally_short_chains_each_next_event_in_turn_is_the_lowest() {
    assert_eq!(chain(&by_steps(&[(0, 2), (2, 1), (0, 3), (3, 1)])), [2, 1]);
    // The lower event after 0 leads on by a higher one than the other does.
    assert_eq!(chain(&by_steps(&[(0, 2), (2, 5), (5, 1), (0, 3), (3, 4), (4, 1)])), [2, 5, 1]);
    assert_eq!(chain(&by_steps(&[(0, 5), (5, 2), (5, 3), (2, 1), (3, 1), (0, 4)])), [5, 2, 1]);
    // The lower event after 5 leads away.
    assert_eq!(chain(&by_steps(&[(0, 5), (5, 2), (5, 3), (3, 1), (2, 4)])), [5, 3, 1]);
}

/// Write 1 is seen by reads 2 to 4, and not by read 5. All are of one site but for the write.
#[test]
fn the_middle_event_is_the_lowest_that_returned_in_time() {
    let told = |ends: [u64; 3]| {
        let middle = |(event, end)| [&seeing(event, &[1])[..], &lasting(event, 0, end)].concat();
        let middles = (2..).zip(ends).flat_map(middle);
        let others = [&lasting(0, 0, 9)[..], &lasting(1, 0, 9), &seeing(5, &[]), &lasting(5, 4, 9)].concat();
        explain(Predicate::MonotonicReads, &changed(OPENING, &middles.chain(others).collect::<Vec<_>>()))
    };
    assert_eq!(told([3, 3, 3]), Ok(vec![2, 5]));
    assert_eq!(told([4, 3, 3]), Ok(vec![3, 5]));
    assert_eq!(told([4, 9, 3]), Ok(vec![4, 5]));
    assert_eq!(told([4, 4, 4]), refused(42, 0));
}

/// So many reads of one site. Each sees the one before it alone, and the last returned before event 0 started.
fn ring(edition: Edition, count: u16) -> Vec<u8> {
    let mut record = Record::new(edition, 1);
    for number in 0..count {
        let mut read = Event::blank();
        (read.start, read.end) = (if number == 0 { 4 } else { 0 }, Some(if number == count - 1 { 3 } else { 9 }));
        (read.position, read.visible) = (number, number.checked_sub(1).into_iter().collect());
        record.push(read);
    }
    record.encode().expect("it passes")
}

/// In the latest edition it fills the slice.
#[test]
fn a_ring_through_all_events_is_told_by_all_of_them() {
    for &edition in Edition::ALL {
        let count = edition.events_most() as u16;
        let (ring, all): (_, Vec<u16>) = (ring(edition, count), (1..count).chain([0]).collect());
        assert_eq!(judge_predicate(Predicate::CausalVisibility, &ring), Ok(Verdict::Broken { a: 0, b: 0 }));
        assert_eq!(explain(Predicate::CausalVisibility, &ring), Ok(all.clone()), "{edition}");
        assert_eq!(explain(Predicate::CausalArbitration, &ring), Ok(all), "{edition}");
    }
}
