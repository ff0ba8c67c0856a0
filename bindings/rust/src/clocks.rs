//! By how much the clocks of a record's sites may differ.

use crate::blocks::{seal, BLOCK};
use crate::Edition;
use alloc::vec::Vec;
use core::ops::Range;

const DIFFERENCE: Range<usize> = 8..12;

/// The milliseconds by which the clocks of two sites may differ, of a record that passed its questions. In edition
/// `GCR1`, which has none, it is 0.
///
/// [`Predicate::RealTime`](crate::Predicate::RealTime) and
/// [`Predicate::RealTimeWrites`](crate::Predicate::RealTimeWrites) are judged by it. A pending event returned before
/// nothing. One that returned did so before an event of its own site started where return < start, and before one of
/// another site where return + difference < start; the sum does not wrap. No other predicate goes by it. What a
/// rehearsal leaves has 0.
///
/// ```
/// # use gcr::{rehearse, Openings, RECORD_MOST};
/// # let mut record = [0; RECORD_MOST];
/// # let length = rehearse(2, &Openings::none(), &[], &mut record, &mut [])?.length;
/// # let record = &record[..length];
/// assert_eq!(gcr::difference(record), 0);
/// # Ok::<(), gcr::Refusal>(())
/// ```
pub fn difference(record: &[u8]) -> u32 {
    match record.get(DIFFERENCE) {
        Some(&[a, b, c, d]) if has_difference(record) => u32::from_le_bytes([a, b, c, d]),
        _ => 0,
    }
}

/// The same record with another difference. `None` of a record of edition `GCR1`, which has none, or of no edition.
///
/// Block 0's check is made anew, so ask the record's questions before.
///
/// Here a put of site 1 comes one millisecond after one of site 0, and before it in arbitration. By clocks that may
/// differ by a millisecond that is right:
///
/// ```
/// use gcr::{judge_predicate, with_difference, Predicate, Verdict};
/// # use gcr::{rehearse, script, Call, Openings, RECORD_MOST};
/// # let put = |site| Call::Put { site, object: 5, value: 7 };
/// # let script = script(&[put(0), put(0), put(1)]);
/// # let mut record = [0; RECORD_MOST];
/// # let length = rehearse(2, &Openings::none(), &script, &mut record, &mut [0; 24])?.length;
/// # let record = &record[..length];
///
/// let judged = |difference| {
///     let record = with_difference(record, difference).expect("a rehearsal writes GCR3");
///     judge_predicate(Predicate::RealTime, &record)
/// };
/// assert_eq!(judged(0)?, Verdict::Broken { a: 1, b: 2 });
/// assert_eq!(judged(1)?, Verdict::Met);
/// # Ok::<(), gcr::Refusal>(())
/// ```
pub fn with_difference(record: &[u8], difference: u32) -> Option<Vec<u8>> {
    if !has_difference(record) || record.len() < BLOCK {
        return None;
    }
    let mut record = record.to_vec();
    record[DIFFERENCE].copy_from_slice(&difference.to_le_bytes());
    seal(&mut record[..BLOCK]);
    Some(record)
}

fn has_difference(record: &[u8]) -> bool {
    Edition::of(record).is_some_and(Edition::has_terms)
}
