//! The baseline behind the C calls: a static library to try the linked comparers
//! with where the proved side is not built.

use second::baseline::{explaining, judging, reading, rehearsal};
use std::slice::{from_raw_parts, from_raw_parts_mut};

/// # Safety
/// Pointers and lengths as of two slices.
#[no_mangle]
pub unsafe extern "C" fn gcr_read(record: *const u8, len: usize, work: *mut u64, words: usize) -> u64 {
    unsafe { reading::read(from_raw_parts(record, len), from_raw_parts_mut(work, words)) }
}

/// # Safety
/// Pointer and length as of a slice.
#[no_mangle]
pub unsafe extern "C" fn gcr_judge_model(model: u32, record: *const u8, len: usize) -> u64 {
    unsafe { judging::judge_model(model, from_raw_parts(record, len)) }
}

/// # Safety
/// Pointer and length as of a slice.
#[no_mangle]
pub unsafe extern "C" fn gcr_judge_predicate(predicate: u32, record: *const u8, len: usize) -> u64 {
    unsafe { judging::judge_predicate(predicate, from_raw_parts(record, len)) }
}

/// # Safety
/// Pointers and lengths as of two slices.
#[no_mangle]
pub unsafe extern "C" fn gcr_judge_all(record: *const u8, len: usize, out: *mut u64, words: usize) -> u64 {
    unsafe { judging::judge_all(from_raw_parts(record, len), from_raw_parts_mut(out, words)) }
}

/// # Safety
/// Pointers and lengths as of two slices.
#[no_mangle]
pub unsafe extern "C" fn gcr_explain(
    predicate: u32,
    record: *const u8,
    len: usize,
    events: *mut u16,
    entries: usize,
) -> u64 {
    unsafe { explaining::explain(predicate, from_raw_parts(record, len), from_raw_parts_mut(events, entries)) }
}

/// # Safety
/// Pointers and lengths as of four slices.
#[no_mangle]
pub unsafe extern "C" fn gcr_rehearse(
    sites: u32,
    openings: *const u8,
    openings_len: usize,
    script: *const u8,
    script_len: usize,
    record: *mut u8,
    record_len: usize,
    answers: *mut u8,
    answers_len: usize,
) -> u64 {
    unsafe {
        let openings = from_raw_parts(openings, openings_len);
        let script = from_raw_parts(script, script_len);
        let record = from_raw_parts_mut(record, record_len);
        rehearsal::rehearse(sites, openings, script, record, from_raw_parts_mut(answers, answers_len))
    }
}
