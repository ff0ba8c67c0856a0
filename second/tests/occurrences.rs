//! A run fails where an answer that it must meet never occurs, and says which.

use second::compare::occurrences::{Occurrences, Row};
use second::compare::subject::{Baseline, Itself};
use second::compare::tally::Tally;
use second::compare::{explain, models, must_occur, programs, reader, rehearsal, Seeds};
use second::generate::record;
use second::questions::ask;
use std::path::Path;
use std::process::{Command, Output};

/// What each comparer must meet.
const LISTS: [&[&[Row]]; 7] = [
    &[must_occur::INSPECT, must_occur::EDITIONS],
    &[
        must_occur::VERDICT,
        must_occur::EDITIONS,
        must_occur::LATE_BREAKS,
        must_occur::READS,
        must_occur::CLOCKS,
        must_occur::RETURNS,
    ],
    &[must_occur::READER, must_occur::EDITIONS],
    &[
        must_occur::MODELS,
        must_occur::EDITIONS,
        must_occur::LATE_BREAKS,
        must_occur::READS,
        must_occur::CLOCKS,
        must_occur::RETURNS,
        must_occur::MODEL_CLOCKS,
        must_occur::MODELS_APART,
    ],
    &[must_occur::REHEARSE, must_occur::STORE_OPENINGS, must_occur::STORE_EVENTS, must_occur::CALLS],
    &[must_occur::REHEARSAL, must_occur::STORE_OPENINGS, must_occur::STORE_EVENTS, must_occur::CALLS],
    &[must_occur::EXPLAIN, must_occur::CHAINS, must_occur::CHAINS_TOLD, must_occur::MIDDLES],
];

fn all_of(lists: &[&[Row]]) -> Vec<(&'static str, u32)> {
    let rows = lists.iter().copied().flatten();
    rows.flat_map(|&(sort, numbers)| numbers.iter().map(move |&number| (sort, number))).collect()
}

/// What is rare after every answer of some lists occurred once, but for one.
fn rare_without(lists: &[&[Row]], left_out: (&str, u32)) -> Vec<String> {
    let mut occurrences = Occurrences::default();
    lists.iter().for_each(|list| occurrences.must(list));
    for (sort, number) in all_of(lists).into_iter().filter(|&answer| answer != left_out) {
        occurrences.count(sort, number);
    }
    occurrences.rarer_than(1)
}

#[test]
fn each_answer_is_missed_alone() {
    for lists in LISTS {
        for (sort, number) in all_of(lists) {
            assert_eq!(rare_without(lists, (sort, number)), [format!("{sort}: {number}")]);
        }
        assert!(rare_without(lists, ("none of them", 0)).is_empty());
    }
}

/// What a run's seeds did not meet of its list.
fn missed(run: impl FnOnce(&mut Tally)) -> Vec<String> {
    let mut tally = Tally::counting();
    run(&mut tally);
    assert_eq!(tally.failed, 0);
    let sentences = tally.fail_what_never_occurred();
    assert_eq!(tally.failed, sentences.len() as u64);
    sentences
}

/// The samples have every refusal, and none of it counts.
#[test]
fn without_seeds_all_is_missed() {
    let none = Seeds::first(0);
    let program = |name: &str| Path::new(name).to_path_buf();
    let (inspect, verdict) = (program(env!("CARGO_BIN_EXE_inspect")), program(env!("CARGO_BIN_EXE_verdict")));
    let rehearse = program(env!("CARGO_BIN_EXE_rehearse"));
    let by_run = [
        missed(|tally| programs::inspect(&inspect, &none, tally)),
        missed(|tally| programs::verdict(&verdict, &none, tally)),
        missed(|tally| reader::compare(&Itself, &none, tally)),
        missed(|tally| models::compare(&Baseline, &none, tally)),
        missed(|tally| programs::rehearse(&rehearse, &none, tally)),
        missed(|tally| rehearsal::compare(&Itself, &none, tally)),
        missed(|tally| explain::compare(&Baseline, &none, tally)),
    ];
    for (lists, sentences) in LISTS.iter().zip(by_run) {
        let every = all_of(lists).into_iter().map(|(sort, number)| format!("{sort}: {number} never occurred"));
        assert_eq!(sentences, every.collect::<Vec<_>>());
    }
}

#[test]
fn rings_are_missed_until_there_is_one() {
    let is_ring = |seed: &u64| ask(&record(*seed).bytes).is_err_and(|refusal| refusal.number == 10);
    let first_ring = (0..).find(is_ring).expect("some seed");
    let of_rings = |seeds| {
        let sentences = missed(|tally| reader::compare(&Itself, &Seeds::first(seeds), tally));
        sentences.iter().filter(|sentence| sentence.ends_with(": 10 never occurred")).count()
    };
    // By place 0 or above or 256 and above, by edition, and by edition beside a difference, which the first one has.
    assert_eq!((of_rings(first_ring), of_rings(first_ring + 1)), (8, 5));
}

fn compare(arguments: &[&str]) -> Output {
    let keep = Path::new(env!("CARGO_TARGET_TMPDIR")).join("occurrences");
    let reader = ["reader", "--against", "itself", "--keep"].map(str::to_string);
    let mut command = Command::new(env!("CARGO_BIN_EXE_compare"));
    command.args(reader).arg(keep).args(arguments).output().expect("runs")
}

#[test]
fn the_program_counts_them_as_failures() {
    let short = compare(&["--seeds", "12"]);
    let text = String::from_utf8_lossy(&short.stdout);
    let sentences = text.lines().filter(|line| line.ends_with(" never occurred")).count();
    let closing = text.lines().last().expect("a closing line");
    assert!(sentences > 0 && closing.ends_with(&format!(" passed, {sentences} failed")), "{text}");
    assert_eq!(short.status.code(), Some(1));
    assert_eq!(compare(&["--seeds", "12", "--few"]).status.code(), Some(0));
    assert_eq!(compare(&["--seeds", "1000"]).status.code(), Some(0));
}
