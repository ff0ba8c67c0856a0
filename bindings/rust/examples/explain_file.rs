//! Tells what happened in the record of a file: prints for each broken predicate its number, its pair and, after `by`,
//! the events that `explain` gives, or `met` where none is broken; exits with 0 met, 1 broken, 2 refused, 3 where the
//! file can't be read or the lines can't be written.

mod on_file;

use gcr::{explain, judge_all, Predicate, Refusal, Verdict};
use std::process::ExitCode;

/// The line of a broken predicate.
fn broken(predicate: Predicate, verdict: Verdict, record: &[u8]) -> Result<String, Refusal> {
    let events: Vec<String> = explain(predicate, record)?.iter().map(u16::to_string).collect();
    Ok(format!("{} {verdict} by {}", predicate.number(), events.join(" ")))
}

/// The lines of all broken predicates.
fn explained(record: &[u8]) -> Result<Vec<String>, Refusal> {
    let verdicts = Predicate::ALL.iter().zip(judge_all(record)?);
    let breaks = verdicts.filter(|(_, verdict)| *verdict != Verdict::Met);
    breaks.map(|(&predicate, verdict)| broken(predicate, verdict, record)).collect()
}

/// The lines, and the exit status that goes with them.
fn told(record: &[u8]) -> (String, u8) {
    match explained(record) {
        Ok(lines) if lines.is_empty() => ("met".to_string(), 0),
        Ok(lines) => (lines.join("\n"), 1),
        Err(refusal) => (format!("refused {} {}", refusal.number, refusal.place), 2),
    }
}

fn main() -> ExitCode {
    on_file::host("explain_file RECORD", told)
}
