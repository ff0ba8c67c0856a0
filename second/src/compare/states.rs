//! Counts slots whose state and return do not go together.

use super::tally::Tally;
use crate::questions::{ask, Refusal};
use crate::record::*;

/// By a slot that is wrong in this alone. A pending event's return is 1, the largest, or 2 for any other.
pub const PENDING_WITH_RETURN: &str = "pending with a return";
pub const RETURNED_AT_0: &str = "returned at 0, before its start";
pub const NO_STATE: &str = "neither returned nor pending";

/// A record that was read.
pub fn read(bytes: &[u8], refusal: Option<Refusal>, tally: &mut Tally) {
    let Some(Refusal { number: 7, place }) = refusal else { return };
    let Some((sort, number)) = state_and_return(slot(bytes, place as usize)) else { return };
    if event_count(bytes) > place as usize && ask(&mended(bytes, place as usize)).err() != refusal {
        tally.occurred(sort, number);
    }
}

/// What is wrong between the two.
fn state_and_return(slot: &[u8]) -> Option<(&'static str, u32)> {
    let (start, end) = (u64_at(slot, 16), u64_at(slot, 24));
    match slot[3] {
        0 if end == 0 && start > 0 => Some((RETURNED_AT_0, 7)),
        1 if end > 0 => Some((PENDING_WITH_RETURN, told_return(end))),
        2.. => Some((NO_STATE, 7)),
        _ => None,
    }
}

/// Right between the two, all else in the slot as it was.
fn mended(bytes: &[u8], event: usize) -> Vec<u8> {
    let mut mended = bytes.to_vec();
    let slot = slot_mut(&mut mended, event);
    let (pending, start, end) = (slot[3] == 1, u64_at(slot, 16), u64_at(slot, 24));
    slot[3] = pending as u8;
    slot[24..32].copy_from_slice(&if pending { 0 } else { end.max(start) }.to_le_bytes());
    seal(&mut mended);
    mended
}

fn told_return(end: u64) -> u32 {
    match end {
        u64::MAX => u32::MAX,
        _ => end.min(2) as u32,
    }
}
