//! The scope's records, read and judged through the library.

use gcr::{is_visible, judge_all, judge_model, judge_predicate, read, Model, Predicate, Refusal, Verdict, WORK_WORDS};

const LISTING: &[u8] = include_bytes!("../../../records/listing.gcr");
const STALE_READ: &[u8] = include_bytes!("../../../records/stale-read.gcr");
const STALE_VALUE: &[u8] = include_bytes!("../../../records/stale-value.gcr");

fn refused(number: u32, place: u32) -> Refusal {
    Refusal { number, place }
}

#[test]
fn the_listing_has_the_scopes_verdicts() {
    for &predicate in Predicate::ALL {
        let expected = match predicate.number() {
            2 | 13 => Verdict::Broken { a: 0, b: 1 },
            3 => Verdict::Broken { a: 2, b: 3 },
            _ => Verdict::Met,
        };
        assert_eq!(judge_predicate(predicate, LISTING), Ok(expected), "{predicate}");
    }
}

#[test]
fn all_at_once_are_as_each_alone() {
    for record in [LISTING, STALE_READ, STALE_VALUE] {
        let verdicts = judge_all(record).unwrap();
        for (&predicate, verdict) in Predicate::ALL.iter().zip(verdicts) {
            assert_eq!(judge_predicate(predicate, record), Ok(verdict), "{predicate}");
        }
    }
}

#[test]
fn a_model_breaks_at_its_first_broken_predicate() {
    assert_eq!(judge_model(Model::Linearizable, LISTING), Ok(Verdict::Broken { a: 0, b: 1 }));
    assert_eq!(judge_model(Model::RealTimeCausal, LISTING), Ok(Verdict::Broken { a: 2, b: 3 }));
    assert_eq!(judge_model(Model::Causal, LISTING), Ok(Verdict::Met));
    assert_eq!(judge_model(Model::Causal, STALE_VALUE), Ok(Verdict::Broken { a: 2, b: 1 }));
    assert_eq!(judge_model(Model::MonotonicReads, STALE_READ), Ok(Verdict::Broken { a: 0, b: 2 }));
}

#[test]
fn a_verdict_prints_as_the_program_writes_it() {
    assert_eq!(judge_model(Model::Causal, STALE_VALUE).map(|verdict| verdict.to_string()), Ok("broken 2 1".into()));
    assert_eq!(judge_model(Model::Causal, LISTING).map(|verdict| verdict.to_string()), Ok("met".into()));
}

#[test]
fn a_read_lays_out_who_sees_whom() {
    let mut work = [u64::MAX; WORK_WORDS + 1];
    assert_eq!(read(STALE_READ, &mut work), Ok(()));
    let seen: Vec<_> = (0..9).map(|pair| (pair / 3, pair % 3)).filter(|&(a, b)| is_visible(&work, a, b)).collect();
    assert_eq!(seen, [(0, 1), (1, 2)]);
    assert_eq!(work[WORK_WORDS], u64::MAX);
}

/// Event 2 of the record sees event 1 alone, and event 1 event 0; there are three.
#[test]
fn a_row_has_six_words_in_an_older_edition_too() {
    let mut work = [u64::MAX; WORK_WORDS + 1];
    assert_eq!(read(STALE_READ, &mut work), Ok(()));
    let mut due = [0; WORK_WORDS + 1];
    (due[6], due[12], due[WORK_WORDS]) = (1, 2, u64::MAX);
    assert_eq!(work, due);
}

#[test]
fn refusals_carry_number_and_place() {
    let mut short = [7; WORK_WORDS - 1];
    assert_eq!(read(LISTING, &mut short), Err(refused(1, 0)));
    assert_eq!(short, [7; WORK_WORDS - 1]);
    let mut damaged = LISTING.to_vec();
    damaged[600] ^= 1;
    assert_eq!(read(&damaged, &mut [0; WORK_WORDS]), Err(refused(4, 1)));
    assert_eq!(judge_model(Model::Causal, &damaged), Err(refused(4, 1)));
    assert_eq!(judge_predicate(Predicate::Pram, &LISTING[..512]), Err(refused(6, 0)));
    assert_eq!(judge_predicate(Predicate::Pram, &[]), Err(refused(3, 0)));
    assert_eq!(judge_all(&damaged), Err(refused(4, 1)));
}

#[test]
fn threads_judge_side_by_side() {
    std::thread::scope(|scope| {
        for &model in Model::ALL {
            let alone = judge_model(model, LISTING);
            scope.spawn(move || assert_eq!(judge_model(model, LISTING), alone));
        }
    });
}
