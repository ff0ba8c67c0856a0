//! Telling what happened where a predicate is broken.

use crate::{ffi, Predicate, Refusal, EVENTS_MOST};
use alloc::vec::Vec;

/// The entries that [`explain_into`] asks for, and the most that it writes, 384: a ring may go through all events.
pub const EXPLAIN_ENTRIES: usize = EVENTS_MOST;

/// Tells what happened where a predicate is broken: the events after a, b last, where (a, b) is the pair that
/// [`judge_predicate`](crate::judge_predicate) finds.
///
/// - [`CausalVisibility`](Predicate::CausalVisibility) and [`CausalArbitration`](Predicate::CausalArbitration): a chain
///   of steps from a to b. A step leads from an event to one of its site that started after its return, or to one that
///   sees it. No chain from a to b has fewer steps; of those with as many, the event after a is the lowest possible,
///   then the one after that, and so on. Where a is b, the chain is a ring: two steps or more, the last to a itself.
/// - [`MonotonicReads`](Predicate::MonotonicReads) and [`WritesFollowReads`](Predicate::WritesFollowReads): the lowest
///   middle event, then b. It is a read of b's site that sees a and returned before b started.
/// - All others: b alone.
///
/// There are 1 to 384 of them.
///
/// # Errors
///
/// By 3 to 10, where the record does not pass its questions, and then by 42, where the predicate is met.
///
/// In the record of a stale read, event 1 is a read that sees write 0, and event 2 a later read of its site that does
/// not:
///
/// ```
/// use gcr::{explain, judge_predicate, Predicate, Verdict};
///
/// let record = include_bytes!("../../../records/stale-read.gcr");
/// assert_eq!(judge_predicate(Predicate::MonotonicReads, record)?, Verdict::Broken { a: 0, b: 2 });
/// assert_eq!(explain(Predicate::MonotonicReads, record)?, [1, 2]);
/// assert_eq!(explain(Predicate::SingleOrder, record)?, [2]);
/// assert_eq!(explain(Predicate::ReadYourWrites, record).unwrap_err().number, 42);
/// # Ok::<(), gcr::Refusal>(())
/// ```
pub fn explain(predicate: Predicate, record: &[u8]) -> Result<Vec<u16>, Refusal> {
    let mut events = [0; EXPLAIN_ENTRIES];
    let count = explain_into(predicate, record, &mut events)?;
    Ok(events[..count].to_vec())
}

/// The same over the front of a slice, and how many events there are. Entries beyond them stay, and a refusal writes
/// none.
///
/// # Errors
///
/// By 41, where the slice has fewer than [`EXPLAIN_ENTRIES`], and then as [`explain`] has them.
///
/// ```
/// use gcr::{explain_into, Predicate, EXPLAIN_ENTRIES};
///
/// let record = include_bytes!("../../../records/stale-read.gcr");
/// let mut events = [9; EXPLAIN_ENTRIES];
/// assert_eq!(explain_into(Predicate::MonotonicReads, record, &mut events)?, 2);
/// assert_eq!(events[..3], [1, 2, 9]);
/// assert_eq!(explain_into(Predicate::MonotonicReads, record, &mut events[1..]).unwrap_err().number, 41);
/// # Ok::<(), gcr::Refusal>(())
/// ```
pub fn explain_into(predicate: Predicate, record: &[u8], events: &mut [u16]) -> Result<usize, Refusal> {
    ffi::explain(predicate.number(), record, events).count()
}
