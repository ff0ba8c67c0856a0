//! The static libraries of the proved side, called as C would.

use super::subject::*;

/// The libraries that this build was linked with.
pub struct Linked;

impl Reader for Linked {
    fn read(&self, record: &[u8], work: &mut [u64]) -> u64 {
        extern "C" {
            fn gcr_read(record: *const u8, len: usize, work: *mut u64, words: usize) -> u64;
        }
        // SAFETY: both pointers come from slices of the lengths given.
        unsafe { gcr_read(record.as_ptr(), record.len(), work.as_mut_ptr(), work.len()) }
    }
}

impl Judge for Linked {
    fn judge_model(&self, model: u32, record: &[u8]) -> u64 {
        extern "C" {
            fn gcr_judge_model(model: u32, record: *const u8, len: usize) -> u64;
        }
        // SAFETY: the pointer comes from a slice of the length given.
        unsafe { gcr_judge_model(model, record.as_ptr(), record.len()) }
    }

    fn judge_predicate(&self, predicate: u32, record: &[u8]) -> u64 {
        extern "C" {
            fn gcr_judge_predicate(predicate: u32, record: *const u8, len: usize) -> u64;
        }
        // SAFETY: the pointer comes from a slice of the length given.
        unsafe { gcr_judge_predicate(predicate, record.as_ptr(), record.len()) }
    }

    fn judge_all(&self, record: &[u8], out: &mut [u64]) -> u64 {
        extern "C" {
            fn gcr_judge_all(record: *const u8, len: usize, out: *mut u64, words: usize) -> u64;
        }
        // SAFETY: both pointers come from slices of the lengths given.
        unsafe { gcr_judge_all(record.as_ptr(), record.len(), out.as_mut_ptr(), out.len()) }
    }
}

impl Explainer for Linked {
    fn explain(&self, predicate: u32, record: &[u8], events: &mut [u16]) -> u64 {
        extern "C" {
            fn gcr_explain(predicate: u32, record: *const u8, len: usize, events: *mut u16, entries: usize) -> u64;
        }
        // SAFETY: both pointers come from slices of the lengths given.
        unsafe { gcr_explain(predicate, record.as_ptr(), record.len(), events.as_mut_ptr(), events.len()) }
    }
}

impl Rehearser for Linked {
    fn rehearse(&self, sites: u32, openings: &[u8], script: &[u8], record: &mut [u8], answers: &mut [u8]) -> u64 {
        extern "C" {
            fn gcr_rehearse(
                sites: u32,
                openings: *const u8,
                openings_len: usize,
                script: *const u8,
                script_len: usize,
                record: *mut u8,
                record_len: usize,
                answers: *mut u8,
                answers_len: usize,
            ) -> u64;
        }
        let (opened, opened_len) = (openings.as_ptr(), openings.len());
        let (to, to_len) = (record.as_mut_ptr(), record.len());
        let (back, back_len) = (answers.as_mut_ptr(), answers.len());
        // SAFETY: every pointer comes from a slice of the length given.
        unsafe { gcr_rehearse(sites, opened, opened_len, script.as_ptr(), script.len(), to, to_len, back, back_len) }
    }
}
