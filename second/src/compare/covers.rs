//! Which model covers which: a subject's own answers held against it, and the pairs of models that records keep apart.

use super::tally::{Case, Tally};
use crate::lattice::{covered, keeps_apart, pairs};
use crate::lines::named;
use crate::models::MET;
use crate::predicates::Answer;

/// A record that meets this model, by the number of another that it breaks.
pub const APART: [&str; 13] = [
    "linearizable met, broken",
    "regular met, broken",
    "sequential met, broken",
    "causal met, broken",
    "real-time causal met, broken",
    "processor met, broken",
    "per-object sequential met, broken",
    "Pram met, broken",
    "monotonic reads met, broken",
    "read your writes met, broken",
    "monotonic writes met, broken",
    "writes follow reads met, broken",
    "slow memory met, broken",
];

/// Takes what a subject said of the thirteen models for a record that passes. The second checker's answers have no part
/// in it.
pub fn held(told: &[u64], case: &Case, tally: &mut Tally) {
    let met = |model: u32| told[model as usize - 1] == MET;
    let against = covered().find(|&(i, j)| met(i) && !met(j));
    tally.check(case, against.is_none(), || {
        let (i, j) = against.expect("there is one");
        format!("{} is met, and {}, which it covers, is not: {told:?}", named(i), named(j))
    });
}

/// A record with these answers.
pub fn kept_apart(answers: &[Answer], tally: &mut Tally) {
    for (i, j) in pairs().filter(|&(i, j)| keeps_apart(answers, i, j)) {
        tally.occurred(APART[i as usize - 1], j);
    }
}
