//! Which model covers which, the records that keep models apart, and the lines about them.

use second::compare::covers::APART;
use second::compare::must_occur;
use second::generate::{record, sweeps};
use second::lattice::{apart, by, covered, covers, gives, keeps_apart, pairs};
use second::lines::{lattice, lattice_of_files, NOT_SHOWN};
use second::models::{answers, NAMES};
use second::predicates::Answer::{self, Broken, Met};
use second::questions::ask;
use second::samples;

/// What each model covers, worked out by hand from the sentence of Change 6.
const BY_HAND: [&[u32]; 13] = [
    &[2, 3, 4, 5, 6, 7, 8, 9, 10, 11, 12, 13],
    &[10, 11],
    &[4, 6, 7, 8, 9, 10, 11, 12, 13],
    &[8, 9, 10, 11, 12, 13],
    &[4, 8, 9, 10, 11, 12, 13],
    &[7, 8, 10, 13],
    &[13],
    &[10, 13],
    &[],
    &[],
    &[],
    &[],
    &[],
];

#[test]
fn so_many_pairs() {
    let given = pairs().filter(|&(i, j)| gives(i, j)).count();
    assert_eq!((given, covered().count(), apart().count(), pairs().count()), (18, 43, 113, 156));
}

#[test]
fn chained_as_by_hand() {
    for (i, list) in (1..).zip(BY_HAND) {
        let chained: Vec<u32> = (1..=13).filter(|&j| covers(i, j)).collect();
        assert_eq!(chained, list, "model {i}");
    }
}

/// One step more at a time, until there is nothing more to add.
#[test]
fn chained_as_by_joining() {
    let mut joined: Vec<(u32, u32)> = pairs().filter(|&(i, j)| gives(i, j)).collect();
    loop {
        let has = |pair| joined.contains(&pair);
        let two = |&(i, j): &(u32, u32)| !has((i, j)) && (1..=13).any(|m| has((i, m)) && has((m, j)));
        let more: Vec<(u32, u32)> = pairs().filter(two).collect();
        if more.is_empty() {
            break;
        }
        joined.extend(more);
    }
    joined.sort();
    assert_eq!(joined, covered().collect::<Vec<_>>());
}

#[test]
fn the_lowest_model_between() {
    let between = [((1, 4), 3), ((1, 10), 2), ((1, 13), 3), ((3, 7), 6), ((3, 8), 4), ((4, 13), 8), ((5, 8), 4)];
    for ((i, j), middle) in between {
        assert_eq!(by(i, j), Some(middle), "from {i} to {j}");
    }
    assert_eq!(by(6, 13), Some(7));
    assert_eq!(by(2, 1), None);
    assert!(covered().all(|(i, j)| gives(i, j) || by(i, j).is_some()));
    assert!(apart().all(|(i, j)| by(i, j).is_none()));
}

/// The list of what must occur is written by hand too.
#[test]
fn all_others_must_occur() {
    let rows = must_occur::MODELS_APART.iter().flat_map(|&(sort, broken)| broken.iter().map(move |&j| (sort, j)));
    let due = apart().map(|(i, j)| (APART[i as usize - 1], j));
    assert_eq!(rows.collect::<Vec<_>>(), due.collect::<Vec<_>>());
    assert!(APART.iter().zip(NAMES).all(|(sort, name)| *sort == format!("{name} met, broken")));
}

/// Other seeds than those of a run, and the fixed records.
#[test]
fn covered_models_are_met() {
    let by_seeds = (5_000..9_000).map(|seed| record(seed).bytes);
    let swept = [sweeps::block_0(), sweeps::clocks(), sweeps::never_returned()].concat().into_iter();
    let fixed = samples::records().map(|sample| sample.bytes).chain(swept.map(|(_, bytes)| bytes));
    let judged: Vec<_> = by_seeds.chain(fixed).filter_map(|bytes| answers(&bytes).ok()).collect();
    assert!(judged.len() > 2_000, "{}", judged.len());
    for (i, j) in covered() {
        assert!(!judged.iter().any(|answers| keeps_apart(answers, i, j)), "{i} met, {j} broken");
    }
}

#[test]
fn eight_files_keep_all_others_apart() {
    for sample in samples::separating() {
        let record = ask(&sample.bytes).expect("passes every question");
        assert!(record.events.len() <= 3, "{}", sample.name);
    }
    let lines = lattice_of_files();
    let of = |part: &str| lines.lines().filter(|line| line.contains(part)).count();
    assert_eq!((of(" covers "), of(", by "), of(" does not cover "), of(NOT_SHOWN)), (43, 25, 113, 0));
}

/// All met but these, each broken at its own number and the next.
fn broken(predicates: &[usize]) -> Vec<Answer> {
    (1..=13).map(|p| if predicates.contains(&p) { Broken(p, p + 1) } else { Met }).collect()
}

fn line_of(begins: &str, lines: &str) -> String {
    lines.lines().find(|line| line.starts_with(begins)).expect(begins).to_string()
}

#[test]
fn a_line_for_each_pair() {
    let none = lattice(&[]);
    assert_eq!(none.lines().count(), 156);
    assert_eq!(none.lines().filter(|line| line.starts_with(NOT_SHOWN)).count(), 113);
    let first = [
        "1 linearizable covers 2 regular",
        "1 linearizable covers 3 sequential",
        "1 linearizable covers 4 causal, by 3 sequential",
    ];
    assert_eq!(none.lines().take(3).collect::<Vec<_>>(), first);
    let last = "NOT SHOWN: no record meets 13 slow memory and breaks 12 writes follow reads\n";
    assert!(none.ends_with(last));
}

/// The first broken predicate of the model's list, which need not be the lowest; and the first record that will do, a
/// refused one counted.
#[test]
fn the_first_record_that_will_do() {
    let refused = answers(&[]);
    let records = [refused, Ok(broken(&[])), Ok(broken(&[1, 3, 12])), Ok(broken(&[3])), Ok(broken(&[3, 11]))];
    let lines = lattice(&records);
    let due = [
        "2 regular does not cover 1 linearizable: record 4, 3 broken 3 4",
        "8 Pram does not cover 1 linearizable: record 3, 3 broken 3 4",
        "8 Pram does not cover 4 causal: record 3, 1 broken 1 2",
        "8 Pram does not cover 7 per-object sequential: record 3, 12 broken 12 13",
        "6 processor does not cover 5 real-time causal: record 4, 3 broken 3 4",
        "6 processor does not cover 4 causal: record 5, 11 broken 11 12",
        "8 Pram covers 13 slow memory",
    ];
    for line in due {
        assert_eq!(line_of(&line[..line.find(':').unwrap_or(line.len())], &lines), line);
    }
    assert!(lines.contains("NOT SHOWN: no record meets 4 causal and breaks 3 sequential\n"));
}
