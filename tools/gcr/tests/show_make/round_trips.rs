//! Records through the built command and back.

use crate::support::{gcr, piped, shipped};
use second::generate;

fn goes_and_comes(name: &str, bytes: &[u8]) {
    for form in [&[][..], &["--csv"]] {
        let shown = piped(&[&["show"], form].concat(), bytes).done();
        let made = piped(&[&["make"], form].concat(), &shown.out).done();
        assert!(made.out == bytes, "{name}: the record is another after\n{}", shown.text());
    }
}

#[test]
fn shipped_records() {
    for (name, bytes) in shipped() {
        goes_and_comes(&name, &bytes);
    }
}

#[test]
fn random_records() {
    let passing = (100_000..).map(|seed| (seed, generate::to_explain(seed).bytes));
    let passing = passing.filter(|(_, bytes)| gcr::read(bytes, &mut [0; gcr::WORK_WORDS]).is_ok());
    for (seed, bytes) in passing.take(40) {
        goes_and_comes(&format!("seed {seed}"), &bytes);
    }
}

#[test]
fn what_is_changed_in_the_text_is_changed_in_the_record() {
    let shown = gcr(&["show", "records/stale-read.gcr"]).done();
    let text = shown.text();
    let judged = |text: &str| {
        let record = piped(&["make"], text.as_bytes()).done().out;
        gcr::judge_predicate(gcr::Predicate::MonotonicReads, &record)
    };
    assert_eq!(judged(text), Ok(gcr::Verdict::Broken { a: 0, b: 2 }));
    assert_eq!(judged(&text.replace("2         [1]\n", "2         [0..1]\n")), Ok(gcr::Verdict::Met));
}
