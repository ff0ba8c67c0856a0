//! Judges the record in a file against model 4, causal: prints the verdict; exits with 0 met, 1 broken,
//! 2 refused, 3 where the file can't be read or the line can't be written.

mod on_file;

use gcr::{judge_model, Model, Verdict};
use std::process::ExitCode;

/// The verdict's line, and the exit status that goes with it.
fn told(record: &[u8]) -> (String, u8) {
    match judge_model(Model::Causal, record) {
        Ok(verdict) => (verdict.to_string(), u8::from(verdict != Verdict::Met)),
        Err(refusal) => (format!("refused {} {}", refusal.number, refusal.place), 2),
    }
}

fn main() -> ExitCode {
    on_file::host("judge_file RECORD", told)
}
