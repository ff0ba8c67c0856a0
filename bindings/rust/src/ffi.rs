//! The library's calls as C has them (`include/gcr.h`, `include/gcr_reader.h`), with a type for each kind of answer. All
//! unsafe code of this package is here.
//!
//! Each wrapper is sound for the same reasons: a pointer and its length come from one slice, which outlives the call;
//! a written slice is `&mut`, so it overlaps no other; the library keeps no pointer, reads and writes inside those
//! lengths only, and answers any bytes and any lengths. An answer's type is one 64-bit number. What a wrapper adds to
//! that stands beside it.

use crate::packing::{Explanation, Judgment, Reading, Rehearsal};

extern "C" {
    fn gcr_read(record: *const u8, len: usize, work: *mut u64, words: usize) -> Reading;
    fn gcr_judge_model(model: u32, record: *const u8, len: usize) -> Judgment;
    fn gcr_judge_predicate(predicate: u32, record: *const u8, len: usize) -> Judgment;
    fn gcr_judge_all(record: *const u8, len: usize, out: *mut Judgment, words: usize) -> Reading;
    fn gcr_explain(predicate: u32, record: *const u8, len: usize, events: *mut u16, entries: usize) -> Explanation;
    fn gcr_rehearse(
        sites: u32,
        openings: *const u8,
        openings_len: usize,
        script: *const u8,
        script_len: usize,
        record: *mut u8,
        record_len: usize,
        answers: *mut u8,
        answers_len: usize,
    ) -> Rehearsal;
}

pub fn read(record: &[u8], work: &mut [u64]) -> Reading {
    // SAFETY: `work` is aligned for its words, and `words` counts words.
    unsafe { gcr_read(record.as_ptr(), record.len(), work.as_mut_ptr(), work.len()) }
}

pub fn judge_model(model: u32, record: &[u8]) -> Judgment {
    // SAFETY: nothing is written; a number that is no model is answered.
    unsafe { gcr_judge_model(model, record.as_ptr(), record.len()) }
}

pub fn judge_predicate(predicate: u32, record: &[u8]) -> Judgment {
    // SAFETY: nothing is written; a number that is no predicate is answered.
    unsafe { gcr_judge_predicate(predicate, record.as_ptr(), record.len()) }
}

pub fn judge_all(record: &[u8], out: &mut [Judgment]) -> Reading {
    // SAFETY: `out` is aligned for its words, and `words` counts words; any number is a `Judgment`.
    unsafe { gcr_judge_all(record.as_ptr(), record.len(), out.as_mut_ptr(), out.len()) }
}

pub fn explain(predicate: u32, record: &[u8], events: &mut [u16]) -> Explanation {
    // SAFETY: `events` is aligned for its entries, and `entries` counts entries; a number that is no predicate is
    // answered.
    unsafe { gcr_explain(predicate, record.as_ptr(), record.len(), events.as_mut_ptr(), events.len()) }
}

pub fn rehearse(sites: u32, openings: &[u8], script: &[u8], record: &mut [u8], answers: &mut [u8]) -> Rehearsal {
    let (record_len, answers_len) = (record.len(), answers.len());
    // SAFETY: both buffers are `&mut`, so they are apart from each other, from the openings and from the script.
    unsafe {
        gcr_rehearse(
            sites,
            openings.as_ptr(),
            openings.len(),
            script.as_ptr(),
            script.len(),
            record.as_mut_ptr(),
            record_len,
            answers.as_mut_ptr(),
            answers_len,
        )
    }
}

#[cfg(test)]
mod tests {
    use super::*;
    use crate::Refusal;
    use alloc::vec;
    use alloc::vec::Vec;

    const LISTING: &[u8] = include_bytes!("../../../records/listing.gcr");

    /// Of a record, over so many words: word p - 1 is what the call of predicate p answers, and later words stay.
    fn words_are_those_of_each_predicate(record: &[u8], words: usize) {
        let mut out = vec![Judgment::UNWRITTEN; words];
        let reading = judge_all(record, &mut out);
        for (p, &word) in (1..).zip(&out) {
            let alone = if p <= 13 { judge_predicate(p, record) } else { Judgment::UNWRITTEN };
            assert_eq!(word, alone, "word {} of {words}", p - 1);
        }
        assert_eq!(reading.passed().err(), judge_predicate(1, record).verdict().err());
    }

    fn at_every_length(record: &[u8]) {
        for words in [0, 1, 5, 13, 15] {
            words_are_those_of_each_predicate(record, words);
        }
    }

    #[test]
    fn all_at_once_are_as_each_alone() {
        at_every_length(LISTING);
    }

    /// So that no word of a refused record reads as met.
    #[test]
    fn a_refused_record_leaves_its_refusal_in_each_word() {
        let mut damaged = LISTING.to_vec();
        damaged[600] ^= 1;
        for record in [&damaged, &LISTING[..512], &[]] {
            at_every_length(record);
        }
    }

    /// The entries that are written of a lent slice of so many, or what refuses it, with place 0. All others must stay.
    fn explained(predicate: u32, record: &[u8], entries: usize) -> Result<Vec<u16>, u32> {
        let mut events = vec![u16::MAX; entries];
        let count = explain(predicate, record, &mut events).count();
        let beyond = &events[count.unwrap_or(0)..];
        assert!(beyond.iter().all(|&entry| entry == u16::MAX), "{predicate} over {entries}");
        match count {
            Ok(count) => Ok(events[..count].to_vec()),
            Err(Refusal { number, place }) => {
                assert_eq!(place, 0);
                Err(number)
            }
        }
    }

    /// Predicate 2 of the listing is broken, and 10 is met.
    #[test]
    fn an_explanation_is_asked_2_then_41_then_of_its_record_then_42() {
        for predicate in [0, 14, u32::MAX] {
            assert_eq!(explained(predicate, &[], 0), Err(2));
            assert_eq!(explained(predicate, LISTING, 400), Err(2));
        }
        for entries in [0, 1, 256, 383] {
            assert_eq!(explained(2, LISTING, entries), Err(41));
            assert_eq!(explained(10, LISTING, entries), Err(41));
            assert_eq!(explained(10, &[], entries), Err(41));
        }
        for entries in [384, 385, 400] {
            assert_eq!(explained(2, LISTING, entries), Ok(vec![1]));
            assert_eq!(explained(10, LISTING, entries), Err(42));
            assert_eq!(explained(10, &[], entries), Err(3));
        }
    }
}
