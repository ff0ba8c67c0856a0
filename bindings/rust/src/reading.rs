//! The record reader, and the visible sets that it lays out.

use crate::slots::Slots;
use crate::{ffi, Edition, Refusal, EVENTS_MOST};

/// The words of an event's visible set, whatever the edition: a bit for each event of the longest record.
const ROW_WORDS: usize = EVENTS_MOST / 64;

/// The words of work memory that [`read`] asks for, 2,304; more will do.
pub const WORK_WORDS: usize = ROW_WORDS * EVENTS_MOST;

/// The bytes of the longest record, 33,280.
pub const RECORD_MOST: usize = Slots::of(Edition::Gcr3).record_bytes(EVENTS_MOST);

/// Asks the questions of a record, and lays its visible sets into `work` where all are answered yes.
///
/// # Errors
///
/// By 1, where `work` has fewer than [`WORK_WORDS`] words, which leaves it unchanged; by 3 to 10, where the record does
/// not pass, which leaves its first [`WORK_WORDS`] words zero. Words beyond those never change.
///
/// ```
/// let mut work = [7; gcr::WORK_WORDS];
/// let refusal = gcr::read(&[0; 100], &mut work).unwrap_err();
/// assert_eq!((refusal.number, refusal.place), (3, 0));
/// assert_eq!(work, [0; gcr::WORK_WORDS]);
/// ```
pub fn read(record: &[u8], work: &mut [u64]) -> Result<(), Refusal> {
    ffi::read(record, work).passed()
}

/// How many events a record has, of one that passed its questions.
///
/// ```
/// assert_eq!(gcr::count(include_bytes!("../../../records/stale-read.gcr")), 3);
/// ```
pub fn count(record: &[u8]) -> u16 {
    match record.get(4..6) {
        Some(&[low, high]) => u16::from_le_bytes([low, high]),
        _ => 0,
    }
}

/// Whether event `a` is visible to event `b`, by the words that a [`read`] which passed has filled.
///
/// # Panics
///
/// Where `work` has no such word: `a` and `b` are below [`EVENTS_MOST`], and the words [`WORK_WORDS`] or more.
///
/// ```
/// # use gcr::{is_visible, read, rehearse, script, Call, Openings, RECORD_MOST, WORK_WORDS};
/// # let script = script(&[Call::Put { site: 0, object: 5, value: 100 }, Call::Get { site: 0, object: 5 }]);
/// # let mut record = [0; RECORD_MOST];
/// # let length = rehearse(1, &Openings::none(), &script, &mut record, &mut [0; 16])?.length;
/// let mut work = [0; WORK_WORDS];
/// read(&record[..length], &mut work)?;
/// assert!(is_visible(&work, 0, 1));
/// assert!(!is_visible(&work, 1, 0));
/// # Ok::<(), gcr::Refusal>(())
/// ```
pub fn is_visible(work: &[u64], a: u16, b: u16) -> bool {
    let (a, b) = (usize::from(a), usize::from(b));
    work[ROW_WORDS * b + a / 64] >> (a % 64) & 1 == 1
}
