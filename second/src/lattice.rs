//! Which model covers which: the implications of Change 6, and what follows by chaining them.

use crate::models::{broken_by, MODELS};
use crate::predicates::Answer;
use crate::relations::Pairs;
use std::sync::LazyLock;

/// The sentence of Change 6, clause by clause: every model on the left gives every one on the right.
const CLAUSES: [(&[u32], &[u32]); 8] = [
    (&[1], &[2, 3, 5]),          // linearizable gives regular, sequential and real-time causal
    (&[5, 3], &[4]),             // real-time causal and sequential each give causal
    (&[3], &[6]),                // sequential gives processor
    (&[6], &[8, 7]),             // processor gives Pram and per-object sequential
    (&[4], &[8, 9, 10, 11, 12]), // causal gives Pram and models 9-12
    (&[8], &[10, 13]),           // Pram gives ReadYourWrites and slow memory
    (&[7], &[13]),               // per-object sequential gives slow memory
    (&[2], &[10, 11]),           // regular gives ReadYourWrites and MonotonicWrites
];

/// Chains of one or more steps, each of them given; model k stands at k - 1.
static COVERS: LazyLock<Pairs> = LazyLock::new(|| {
    let step = |i, j| gives(i as u32 + 1, j as u32 + 1);
    Pairs::such_that(MODELS.len(), step).one_or_more_steps()
});

/// The paper itself says that i gives j.
pub fn gives(i: u32, j: u32) -> bool {
    CLAUSES.iter().any(|(left, right)| left.contains(&i) && right.contains(&j))
}

/// j is given by i, or follows by chaining.
pub fn covers(i: u32, j: u32) -> bool {
    COVERS.has(i as usize - 1, j as usize - 1)
}

/// Of the models that i gives, the lowest that covers j.
pub fn by(i: u32, j: u32) -> Option<u32> {
    models().find(|&middle| gives(i, middle) && covers(middle, j))
}

fn models() -> impl Iterator<Item = u32> {
    1..=MODELS.len() as u32
}

/// All ordered pairs of different models, the first rising, and for each the second.
pub fn pairs() -> impl Iterator<Item = (u32, u32)> {
    models().flat_map(|i| models().filter(move |&j| i != j).map(move |j| (i, j)))
}

/// Those of which the first covers the second.
pub fn covered() -> impl Iterator<Item = (u32, u32)> {
    pairs().filter(|&(i, j)| covers(i, j))
}

/// Those that a record has to keep apart.
pub fn apart() -> impl Iterator<Item = (u32, u32)> {
    pairs().filter(|&(i, j)| !covers(i, j))
}

/// A record with these answers meets i and breaks j.
pub fn keeps_apart(answers: &[Answer], i: u32, j: u32) -> bool {
    broken_by(i, answers).is_none() && broken_by(j, answers).is_some()
}
