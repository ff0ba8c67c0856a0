//! What must hold between a subject's own answers to records that differ in their difference of clocks alone. The second
//! checker has no part in it.

use super::models::LENT_WORD;
use super::subject::Judge;
use super::tally::{Case, Tally};
use crate::models::MET;
use crate::record::{seal, u32_at, Edition, DIFFERENCE_AT};

/// A difference, and what the subject said of all thirteen.
type Judgment = (u32, [u64; 13]);

/// Where 3 and 4 stand.
const REAL_TIME: std::ops::Range<usize> = 2..4;

/// Takes a record that passes.
pub fn differences(subject: &dyn Judge, case: &Case, tally: &mut Tally) {
    let own = u32_at(case.input, DIFFERENCE_AT.start);
    let others = [0, own.saturating_sub(1), own.saturating_add(1), u32::MAX];
    let mut judgments = vec![(own, judged(subject, case.input))];
    judgments.extend(others.map(|other| (other, judged(subject, &with_difference(case.input, other)))));
    judgments.sort_by_key(|judgment| judgment.0);
    for pair in judgments.windows(2) {
        tally.check(case, agree(&pair[0], &pair[1]), || format!("differences disagree: {pair:?}"));
    }
}

fn judged(subject: &dyn Judge, bytes: &[u8]) -> [u64; 13] {
    let mut words = [LENT_WORD; 13];
    subject.judge_all(bytes, &mut words);
    words
}

/// Of `GCR2` where it was of `GCR1`, which has the same answers where the difference is 0.
fn with_difference(bytes: &[u8], difference: u32) -> Vec<u8> {
    let mut other = bytes.to_vec();
    other[..4].copy_from_slice(Edition::of_or_older(bytes).to_be_headed().letters);
    other[DIFFERENCE_AT].copy_from_slice(&difference.to_le_bytes());
    seal(&mut other);
    other
}

/// A larger difference leaves fewer pairs that could break 3 or 4, and has no part in any other predicate.
fn agree(smaller: &Judgment, larger: &Judgment) -> bool {
    (0..13).all(|at| {
        let (before, after) = (smaller.1[at], larger.1[at]);
        let may_move = REAL_TIME.contains(&at) && smaller.0 < larger.0;
        before == after || (may_move && rank(before) < rank(after))
    })
}

/// By the pair that is named; met is later than any.
fn rank(answer: u64) -> u64 {
    if answer == MET {
        u64::MAX
    } else {
        answer
    }
}
