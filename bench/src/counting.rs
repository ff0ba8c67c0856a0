//! Instructions of one call, as callgrind counts them.
//!
//! callgrind is told to collect inside `counted_call` alone and to write what it has collected whenever that is left,
//! so its parts stand in the order of the calls, and neither start-up nor the making of inputs is in them.

use crate::both::{Both, Side};
use crate::cases::Case;

/// Instructions of one call, the proved one and the baseline.
pub type Counts = [u64; 2];

/// For callgrind's eyes; the checks have called both sides before, so nothing is done for a first time here.
pub fn call_each_once(cases: &mut [Case]) {
    for case in cases {
        counted_call(&mut *case.both, Side::Proved);
        counted_call(&mut *case.both, Side::Baseline);
    }
}

/// Under a plain name, by which `bench/run` tells callgrind of it.
#[no_mangle]
#[inline(never)]
fn counted_call(both: &mut dyn Both, side: Side) {
    both.call(side);
}

/// The totals of callgrind's parts, two for each case; the part of the program's end comes after them.
pub fn parse(parts: &str, cases: usize) -> Vec<Counts> {
    let totals = parts.lines().filter_map(|line| line.strip_prefix("totals: "));
    let totals: Vec<u64> = totals.map(|total| total.trim().parse().expect("a number")).collect();
    assert!(totals.len() >= 2 * cases, "{} parts for {cases} cases", totals.len());
    totals.chunks_exact(2).take(cases).map(|pair| [pair[0], pair[1]]).collect()
}

#[cfg(test)]
mod tests {
    use super::*;

    #[test]
    fn parts_are_taken_two_by_two() {
        let parts = "part: 1\ntotals: 10\n\nfn=(1)\n3 7\ntotals: 20\ntotals: 30\ntotals: 40\ntotals: 0\n";
        assert_eq!(parse(parts, 2), [[10, 20], [30, 40]]);
    }

    #[test]
    #[should_panic(expected = "1 parts for 1 cases")]
    fn too_few_parts_are_not_taken() {
        parse("totals: 10\n", 1);
    }
}
