//! Judges predicates 3 and 4 of the record in a file, as if its sites' clocks did not differ and by the difference that
//! it has: prints the verdicts; exits with 0 judged, 2 refused, 3 where the file can't be read or the line can't be
//! written.

mod on_file;

use gcr::{difference, judge_all, with_difference, Refusal};
use std::process::ExitCode;

/// Both verdicts, by the difference that the record has.
fn judged(record: &[u8]) -> Result<String, Refusal> {
    let [_, _, all, writes, ..] = judge_all(record)?;
    Ok(format!("by {} ms: 3 {all}, 4 {writes}", difference(record)))
}

/// Where the record has another difference than 0, it is judged by 0 before.
fn compared(record: &[u8]) -> Result<String, Refusal> {
    let own = judged(record)?;
    match with_difference(record, 0) {
        Some(even) if difference(record) > 0 => Ok(format!("{}; {own}", judged(&even)?)),
        _ => Ok(own),
    }
}

/// The line of the verdicts, and the exit status that goes with it.
fn told(record: &[u8]) -> (String, u8) {
    match compared(record) {
        Ok(line) => (line, 0),
        Err(refusal) => (format!("refused {} {}", refusal.number, refusal.place), 2),
    }
}

fn main() -> ExitCode {
    on_file::host("clocks_file RECORD", told)
}
