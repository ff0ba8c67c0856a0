//! Medians of many short rounds, the two sides in turn.

use crate::both::{Both, Side};
use std::time::{Duration, Instant};

/// Odd, so that one of them is the median.
const ROUNDS: usize = 301;

/// Long beside the clock's step, and short beside what other programs take of the machine.
const ROUND: Duration = Duration::from_micros(80);

/// Microseconds of one call, the proved one and the baseline.
pub fn medians(both: &mut dyn Both) -> [f64; 2] {
    let calls = calls_in_a_round(both);
    let mut rounds = [Vec::with_capacity(ROUNDS), Vec::with_capacity(ROUNDS)];
    for _ in 0..ROUNDS {
        rounds[0].push(round(both, Side::Proved, calls));
        rounds[1].push(round(both, Side::Baseline, calls));
    }
    rounds.map(|rounds| median(rounds).as_secs_f64() * 1e6 / f64::from(calls))
}

fn round(both: &mut dyn Both, side: Side, calls: u32) -> Duration {
    let begun = Instant::now();
    for _ in 0..calls {
        both.call(side);
    }
    begun.elapsed()
}

fn calls_in_a_round(both: &mut dyn Both) -> u32 {
    let mut calls = 1;
    while round(both, Side::Proved, calls).max(round(both, Side::Baseline, calls)) < ROUND {
        calls *= 2;
    }
    calls
}

fn median<T: Ord>(mut all: Vec<T>) -> T {
    all.sort_unstable();
    let middle = all.len() / 2;
    all.swap_remove(middle)
}

#[cfg(test)]
mod tests {
    use super::*;

    #[test]
    fn half_stand_on_each_side_of_the_median() {
        assert_eq!(median(vec![5]), 5);
        assert_eq!(median(vec![9, 1, 5]), 5);
        assert_eq!(median(vec![2, 2, 9, 2, 1]), 2);
    }
}
