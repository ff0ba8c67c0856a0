//! Records of sites whose clocks may differ.

mod changing;
mod editions;
mod sealing;

use changing::changed;
use editions::in_edition;
use gcr::{difference, judge_all, judge_model, judge_predicate, read, rehearse, with_difference};
use gcr::{Edition, Model, Openings, Predicate, Refusal, Verdict, RECORD_MOST, WORK_WORDS};
use sealing::sealed;

const LISTING: &[u8] = include_bytes!("../../../records/listing.gcr");
const OPENING: &[u8] = include_bytes!("../../../records/opening.gcr");
const STALE_OPENING: &[u8] = include_bytes!("../../../records/stale-opening.gcr");
/// Of edition GCR1.
const STALE_READ: &[u8] = include_bytes!("../../../records/stale-read.gcr");
/// Event 0, a write of site 0, returned at 110; event 1, of site 1, started at 150 and is before it in arbitration.
const CLOCKS: &[u8] = include_bytes!("../../../records/clocks.gcr");
const EARLY_READ: &[u8] = include_bytes!("../../../records/early-read.gcr");
/// The early read's, but for event 0, which is pending.
const NEVER_RETURNED: &[u8] = include_bytes!("../../../records/never-returned.gcr");

const BROKEN: Verdict = Verdict::Broken { a: 0, b: 1 };
/// The models that have predicate 3 or 4 in their lists.
const BY_CLOCKS: [Model; 3] = [Model::Linearizable, Model::Regular, Model::RealTimeCausal];

fn apart(record: &[u8], difference: u32) -> Vec<u8> {
    with_difference(record, difference).expect("it is of edition GCR2 or GCR3")
}

/// Predicates 3 and 4.
fn timed(record: &[u8]) -> [Verdict; 2] {
    let verdicts = judge_all(record).expect("it passes");
    [verdicts[2], verdicts[3]]
}

#[test]
fn a_record_tells_its_difference() {
    assert_eq!([CLOCKS, EARLY_READ, LISTING, STALE_READ].map(difference), [40, 39, 0, 0]);
    for number in (0..32).map(|bit| 1 << bit).chain([0, u32::MAX]) {
        let record = apart(CLOCKS, number);
        assert_eq!(difference(&record), number);
        assert_eq!(record[8..12], number.to_le_bytes());
        assert_eq!(read(&record, &mut [0; WORK_WORDS]), Ok(()));
    }
    assert_eq!([&[][..], b"GCR2", b"GCR3", b"GCR1    \x01\0\0\0", b"GCR4    \x01\0\0\0"].map(difference), [0; 5]);
}

#[test]
fn edition_3_has_a_difference_as_edition_2_has() {
    let [clocks, early_read] = [CLOCKS, EARLY_READ].map(|record| in_edition(Edition::Gcr3, record));
    assert_eq!([&clocks[..], &early_read].map(difference), [40, 39]);
    assert_eq!(apart(&clocks, 39), early_read);
    assert_eq!((timed(&clocks), timed(&early_read)), ([Verdict::Met; 2], [BROKEN; 2]));
}

#[test]
fn another_difference_leaves_all_else_as_it_was() {
    assert_eq!(apart(CLOCKS, 39), EARLY_READ);
    assert_eq!(apart(EARLY_READ, 40), CLOCKS);
    assert_eq!(apart(LISTING, 0), LISTING);
    assert_eq!([STALE_READ, &CLOCKS[..511], &[]].map(|record| with_difference(record, 0)), [None, None, None]);
}

#[test]
fn between_sites_a_return_is_before_a_start_by_more_than_the_difference() {
    for difference in [0, 1, 38, 39] {
        assert_eq!(timed(&apart(CLOCKS, difference)), [BROKEN; 2], "{difference}");
    }
    for difference in [40, 41, 255, 256, 1 << 16, 1 << 24, u32::MAX] {
        assert_eq!(timed(&apart(CLOCKS, difference)), [Verdict::Met; 2], "{difference}");
    }
    for model in BY_CLOCKS {
        assert_eq!((judge_model(model, CLOCKS), judge_model(model, EARLY_READ)), (Ok(Verdict::Met), Ok(BROKEN)));
    }
}

/// Returns at 5, starts at 10.
#[test]
fn the_worked_example_is_before_by_4_and_not_by_5() {
    let record = changed(CLOCKS, &[(0, 16, 0), (0, 24, 5), (1, 16, 10), (1, 24, 10)]);
    assert_eq!(timed(&apart(&record, 4)), [BROKEN; 2]);
    assert_eq!(timed(&apart(&record, 5)), [Verdict::Met; 2]);
}

/// Events 3 and 4 of one site change places in arbitration. Event 0 returned a millisecond before event 1 of another site
/// started, and is after it in arbitration.
#[test]
fn at_one_site_no_difference_helps() {
    let record = changed(OPENING, &[(3, 8, 1 + (4 << 16)), (4, 8, 1 + (3 << 16))]);
    for (difference, a, b) in [(0, 0, 1), (1, 3, 4), (2, 3, 4), (u32::MAX, 3, 4)] {
        let verdict = judge_predicate(Predicate::RealTime, &apart(&record, difference));
        assert_eq!(verdict, Ok(Verdict::Broken { a, b }), "{difference}");
    }
}

/// By a return of 0, which its field has, event 0 would be before both others.
#[test]
fn a_pending_event_is_before_nothing() {
    let pending = 0x0000_0007_0100_0001;
    assert_eq!(changed(EARLY_READ, &[(0, 0, pending), (0, 24, 0)]), NEVER_RETURNED);
    let last = u64::MAX;
    let at_the_end = changed(NEVER_RETURNED, &[(1, 16, last), (1, 24, last), (2, 16, last), (2, 24, last)]);
    for difference in [0, 1, 39, u32::MAX] {
        assert_eq!(judge_all(&apart(NEVER_RETURNED, difference)), Ok([Verdict::Met; 13]), "{difference}");
        assert_eq!(timed(&apart(&at_the_end, difference)), [Verdict::Met; 2], "{difference}");
    }
}

/// A sum of 64 bits would come out below both starts, and a difference of times above the return.
#[test]
fn neither_sum_nor_difference_wraps() {
    let late = 1 << 40;
    let at_the_end =
        changed(CLOCKS, &[(0, 24, u64::MAX), (1, 16, late), (1, 24, late), (2, 16, u64::MAX), (2, 24, u64::MAX)]);
    let at_once = changed(CLOCKS, &[(0, 16, 0), (0, 24, 1), (1, 16, 2), (1, 24, 2)]);
    for difference in [1, 2, u32::MAX] {
        assert_eq!(timed(&apart(&at_the_end, difference)), [Verdict::Met; 2], "{difference}");
        assert_eq!(timed(&apart(&at_once, difference)), [Verdict::Met; 2], "{difference}");
    }
}

#[test]
fn the_other_eleven_are_the_same_by_any_difference_and_a_larger_one_breaks_nothing() {
    for record in [CLOCKS, LISTING, OPENING, STALE_OPENING] {
        let judged = |difference| judge_all(&apart(record, difference)).unwrap();
        let differences = [0, 1, 2, 39, 40, u32::MAX];
        for pair in differences.windows(2) {
            let (less, more) = (judged(pair[0]), judged(pair[1]));
            for k in 0..13 {
                let is_timed = k == 2 || k == 3;
                assert!(less[k] == more[k] || is_timed && less[k] != Verdict::Met, "predicate {}, {pair:?}", k + 1);
            }
        }
    }
}

#[test]
fn edition_1_has_no_difference() {
    let mut record = STALE_READ.to_vec();
    for at in 8..12 {
        record[at] = 1;
        assert_eq!(judge_model(Model::Pram, &sealed(record.clone())), Err(Refusal { number: 5, place: 0 }));
        record[at] = 0;
    }
}

#[test]
fn a_rehearsal_writes_0() {
    let mut record = [7; RECORD_MOST];
    let done = rehearse(2, &Openings::none(), &[], &mut record, &mut []).unwrap();
    assert_eq!((record[8..12].to_vec(), difference(&record[..done.length])), (vec![0; 4], 0));
}
