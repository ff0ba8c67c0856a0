//! The baseline agrees with the literal reading on the same inputs.

use second::baseline::columns::Columns;
use second::baseline::judging::{judge_all, judge_predicate, prepare};
use second::compare::subject::{Baseline, Itself, Rehearser};
use second::compare::tally::Tally;
use second::compare::{explain, models, reader, rehearsal, Seeds};
use second::explain::Explanation;
use second::generate::random::Random;
use second::generate::sweeps::{self, figures, Named};
use second::generate::{self, scripts, shapes};
use second::limits::{ENTRIES, MOST_BYTES, MOST_EVENTS};
use second::models::{judged, refused};
use second::openings::Openings;
use second::predicates::Answer::{Broken, Met};
use second::predicates::{Judged, PREDICATES};
use second::questions::ask;
use second::store::Call;

fn all_passed(tally: Tally, at_least: u64) {
    assert_eq!(tally.failed, 0);
    assert!(tally.passed >= at_least, "{}", tally.summary());
}

#[test]
fn reads_alike() {
    let mut tally = Tally::counting();
    reader::compare(&Baseline, &Seeds::first(2_000), &mut tally);
    all_passed(tally, 20_000);
}

#[test]
fn judges_models_alike() {
    let mut tally = Tally::counting();
    models::compare(&Baseline, &Seeds { from: 5_000, ..Seeds::first(700) }, &mut tally);
    all_passed(tally, 10_000);
}

/// One set of columns for all records, so that nothing may linger in it.
#[test]
fn judges_predicates_alike() {
    let mut columns = Columns::new();
    for seed in 10_000..10_700 {
        let bytes = generate::record(seed).bytes;
        let Ok(record) = ask(&bytes) else { continue };
        prepare(&bytes, &mut columns).expect("both pass it");
        let broken = columns.all_broken().map(|pair| pair.map_or(Met, |(a, b)| Broken(a, b)));
        assert_eq!(Judged::new(&record).answers(), broken, "seed {seed}");
    }
}

/// The calls that read a record and judge one predicate or all.
#[test]
fn judges_alone_and_all_at_once() {
    for seed in 20_000..20_300 {
        let bytes = generate::record(seed).bytes;
        let mut verdicts = [7; 14];
        let answer = judge_all(&bytes, &mut verdicts);
        let (whole, each) = match ask(&bytes) {
            Err(refusal) => (refused(refusal), vec![refused(refusal); 13]),
            Ok(record) => (0, Judged::new(&record).answers().into_iter().map(judged).collect()),
        };
        assert_eq!((answer, &verdicts[..13], verdicts[13]), (whole, &each[..], 7), "seed {seed}");
        let alone: Vec<u64> = PREDICATES.map(|predicate| judge_predicate(predicate, &bytes)).collect();
        assert_eq!(alone, each, "seed {seed}");
    }
}

#[test]
fn explains_alike() {
    let mut tally = Tally::counting();
    explain::compare(&Baseline, &Seeds { from: 5_000, ..Seeds::first(500) }, &mut tally);
    all_passed(tally, 150_000);
}

/// One set of columns for all records, and what the last one's chain left in the slice.
#[test]
fn explains_alike_in_turn() {
    let mut columns = Columns::new();
    let mut events = [0; ENTRIES];
    for seed in 10_000..10_300 {
        let bytes = generate::to_explain(seed).bytes;
        let Ok(record) = ask(&bytes) else { continue };
        prepare(&bytes, &mut columns).expect("both pass it");
        for (predicate, due) in PREDICATES.zip(Judged::new(&record).explanations()) {
            let told = columns.broken(predicate).map(|pair| {
                let count = columns.explain(predicate, pair, &mut events);
                Explanation { a: pair.0, events: events[..count].iter().map(|&event| event.into()).collect() }
            });
            assert_eq!(due, told, "seed {seed}, predicate {predicate}");
        }
    }
}

#[test]
fn rehearses_alike() {
    let mut tally = Tally::counting();
    rehearsal::compare(&Baseline, &Seeds::first(800), &mut tally);
    all_passed(tally, 4_000);
}

/// The result, the record and the answers.
fn rehearsed(subject: &dyn Rehearser, sites: usize, openings: &[u8], script: &[u8]) -> (u64, Vec<u8>, Vec<u8>) {
    let (mut record, mut answers) = (vec![7; MOST_BYTES], vec![7; script.len()]);
    let result = subject.rehearse(sites as u32, openings, script, &mut record, &mut answers);
    (result, record, answers)
}

fn assert_alike(sites: usize, openings: &[u8], script: &[u8]) {
    let both = [&Baseline as &dyn Rehearser, &Itself].map(|subject| rehearsed(subject, sites, openings, script));
    assert!(both[0] == both[1], "{sites} sites, openings {openings:?}");
}

/// A day without a delivery, then closed: every copy is lacking.
fn closed_at_last(sites: usize) -> Vec<u8> {
    let event = |k: usize| match k % 5 {
        4 => Call::Get { site: k % sites, object: k % 32 },
        _ => Call::Put { site: k % sites, object: k % 32, value: k as u32 },
    };
    let closed = [Call::Close, Call::Get { site: 0, object: 0 }, Call::Close];
    (0..MOST_EVENTS).map(event).chain(closed).flat_map(Call::to_bytes).collect()
}

#[test]
fn rehearses_days_with_closes_alike() {
    for sites in 1..=8 {
        let days = (0..4).map(|seed| scripts::day_with_closes(seed, sites));
        for script in days.chain([closed_at_last(sites)]) {
            assert_alike(sites, &Openings::none().to_bytes(), &script);
            assert_alike(sites, &figures(|object| object % 3 > 0).to_bytes(), &script);
        }
    }
}

/// Records of many events, each with differences from none to the largest.
fn large_with_differences() -> Vec<Named<Vec<u8>>> {
    let of_seed = |seed| {
        let record = shapes::of_any_edition(&mut Random::new(seed), 64);
        let apart = |difference| (format!("seed {seed}, {difference}"), record.clone().apart(difference).to_bytes());
        [0, 1, 2, 9, 60, 1 << 31, u32::MAX].map(apart)
    };
    (0..60).flat_map(of_seed).collect()
}

/// Nothing of one record's difference may linger for the next.
#[test]
fn judges_clocks_alike_in_turn() {
    let mut columns = Columns::new();
    for (name, bytes) in [sweeps::clocks(), sweeps::never_returned(), large_with_differences()].concat() {
        let record = ask(&bytes).expect("passes");
        prepare(&bytes, &mut columns).expect("both pass it");
        let broken = columns.all_broken().map(|pair| pair.map_or(Met, |(a, b)| Broken(a, b)));
        assert_eq!(Judged::new(&record).answers(), broken, "{name}");
    }
}

/// Nothing of one record's openings may linger for the next.
#[test]
fn judges_openings_alike_in_turn() {
    let mut columns = Columns::new();
    for (name, bytes) in sweeps::block_0() {
        let Ok(record) = ask(&bytes) else { continue };
        prepare(&bytes, &mut columns).expect("both pass it");
        let broken = columns.broken(1).map_or(Met, |(a, b)| Broken(a, b));
        assert_eq!(Judged::new(&record).answer(1), broken, "{name}");
    }
}
