//! The reading call: question 1, questions 3 to 10, and the work slice.

use crate::limits::{ROW_WORDS, WORK_WORDS};
use crate::models::{refused, MET};
use crate::questions::{ask, Refusal};
use crate::record::Record;

pub fn read(bytes: &[u8], work: &mut [u64]) -> u64 {
    if work.len() < WORK_WORDS {
        return refused(Refusal { number: 1, place: 0 });
    }
    work[..WORK_WORDS].fill(0);
    match ask(bytes) {
        Err(refusal) => refused(refusal),
        Ok(record) => {
            fill(&record, work);
            MET
        }
    }
}

/// Rows are as wide for every edition.
fn fill(record: &Record, work: &mut [u64]) {
    for (e, event) in record.events.iter().enumerate() {
        for b in (0..event.visible.len()).filter(|&b| event.visible[b]) {
            work[ROW_WORDS * e + b / 64] |= 1 << (b % 64);
        }
    }
}
