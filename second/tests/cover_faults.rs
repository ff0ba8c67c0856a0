//! The comparers find deliberate faults with which model covers which. No other test here may start a process, as a
//! script is written and then run.

use second::compare::programs;
use second::compare::tally::{Case, Tally};
use second::compare::{covers, models, subject::Baseline, subject::Judge, Seeds};
use second::lattice;
use second::models::{BROKEN, MET};
use std::fs;
use std::os::unix::fs::PermissionsExt;
use std::path::{Path, PathBuf};

/// A subject's answers: i and what it covers are met, but for j, and nothing else is.
fn told(i: u32, j: u32) -> Vec<u64> {
    let met = |model| model != j && (model == i || lattice::covers(i, model));
    (1..=13).map(|model| if met(model) { MET } else { BROKEN }).collect()
}

fn against(told: &[u64]) -> bool {
    let mut tally = Tally::counting();
    covers::held(told, &Case { name: String::new(), input: &[] }, &mut tally);
    tally.failed == 1
}

/// Exactly where the first covers the other, by the subject's own answers.
#[test]
fn a_covered_model_that_is_not_met_is_found() {
    for (i, j) in lattice::pairs() {
        assert_eq!(against(&told(i, j)), lattice::covers(i, j), "{i} met, {j} not");
    }
    assert!(!against(&[MET; 13]) && !against(&[BROKEN; 13]));
}

/// Finds causal broken, and all else as it should.
struct NeverCausal;

impl Judge for NeverCausal {
    fn judge_model(&self, model: u32, bytes: &[u8]) -> u64 {
        let right = Baseline.judge_model(model, bytes);
        if model == 4 && right == MET {
            BROKEN
        } else {
            right
        }
    }

    fn judge_predicate(&self, predicate: u32, bytes: &[u8]) -> u64 {
        Baseline.judge_predicate(predicate, bytes)
    }

    fn judge_all(&self, bytes: &[u8], out: &mut [u64]) -> u64 {
        Baseline.judge_all(bytes, out)
    }
}

fn made(name: &str) -> PathBuf {
    let folder = Path::new(env!("CARGO_TARGET_TMPDIR")).join(name);
    let _ = fs::remove_dir_all(&folder);
    fs::create_dir_all(&folder).expect("can be made");
    folder
}

/// Once against the second checker's answer, and once by the subject's own.
#[test]
fn sequential_without_causal_is_told_twice() {
    let folder = made("covers");
    models::compare(&NeverCausal, &Seeds::first(0), &mut Tally::keeping(folder.clone()));
    let files = fs::read_dir(&folder).expect("made").map(|entry| entry.expect("read").path());
    let texts: Vec<String> = files.filter_map(|path| fs::read_to_string(path).ok()).collect();
    for due in ["model 4: second checker 0", "3 sequential is met, and 4 causal, which it covers, is not"] {
        assert!(texts.iter().any(|text| text.starts_with(due)), "{due}");
    }
}

/// How many comparisons fail of the right program with its lines changed, or its records.
fn failures(folder: &Path, lines: &str, records: &str) -> u64 {
    let script = folder.join("lattice");
    let right = env!("CARGO_BIN_EXE_lattice");
    let text = format!("#!/bin/sh\n[ $# -eq 0 ] || exec '{right}' {records}\n'{right}' | {lines}\n");
    fs::write(&script, text).expect("can be written");
    fs::set_permissions(&script, fs::Permissions::from_mode(0o755)).expect("can be set");
    let mut tally = Tally::counting();
    programs::lattice(&script, &mut tally);
    assert_eq!(tally.passed + tally.failed, 17);
    tally.failed
}

#[test]
fn wrong_lines_are_found() {
    let folder = made("lines");
    assert_eq!(failures(&folder, "cat", "\"$@\""), 0);
    let changes = [
        "sed '$d'",
        "sed '$p'",
        "sed 2q",
        "tr -d '\\n'",
        "sed '1s/covers/does not cover/'",
        "sed '3s/by 3 sequential/by 5 real-time causal/'",
        "sed '3s/, by.*//'",
        "sed '$s/broken 0/broken 1/'",
        "sed '20s/record [0-9]/record 9/'",
        "sed '156s/.*/NOT SHOWN: no record meets 13 slow memory and breaks 12 writes follow reads/'",
        "tr a-z A-Z",
        "cat >/dev/null",
    ];
    for change in changes {
        assert_eq!(failures(&folder, change, "\"$@\""), 1, "{change}");
    }
    let mut tally = Tally::counting();
    programs::lattice(Path::new("no-such-program"), &mut tally);
    assert_eq!(tally.failed, 16);
}

#[test]
fn wrong_records_are_found() {
    let folder = made("records");
    assert_eq!(failures(&folder, "cat", "3"), 14);
    assert_eq!(failures(&folder, "cat", ""), 15);
    assert_eq!(failures(&folder, "cat", "9"), 8);
}
