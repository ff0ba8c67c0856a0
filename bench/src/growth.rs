//! How the work grows with the events: n rises fourfold twice, in records of one edition.

use crate::cases::SIZES;
use crate::row::Row;

pub struct Growth {
    pub call: String,
    pub input: String,
    /// Of the proved call and of the baseline: 64 events over 16, and 256 over 64.
    pub factors: [[f64; 2]; 2],
}

impl Growth {
    pub const HEADS: [&'static str; 6] =
        ["call", "input", "proved 16 to 64", "64 to 256", "Rust 16 to 64", "64 to 256"];

    pub fn cells(&self) -> Vec<String> {
        let factors = self.factors.iter().flatten().map(|factor| format!("{factor:.1}"));
        [self.call.clone(), self.input.clone()].into_iter().chain(factors).collect()
    }
}

/// Of each call and input that was measured at all sizes.
pub fn of(rows: &[Row]) -> Vec<Growth> {
    let smallest = rows.iter().filter(|row| row.n == SIZES[0]);
    smallest.filter_map(|row| growth(rows, row)).collect()
}

fn growth(rows: &[Row], smallest: &Row) -> Option<Growth> {
    let at =
        |n: usize| rows.iter().find(|row| row.n == n && (&row.call, &row.input) == (&smallest.call, &smallest.input));
    let costs = [smallest, at(SIZES[1])?, at(SIZES[2])?].map(cost);
    let factors = [0, 1].map(|side| [costs[1][side] / costs[0][side], costs[2][side] / costs[1][side]]);
    Some(Growth { call: smallest.call.clone(), input: smallest.input.clone(), factors })
}

/// Instructions, which are the same on every run, or else microseconds.
fn cost(row: &Row) -> [f64; 2] {
    row.counts.map_or(row.micros, |counts| counts.map(|count| count as f64))
}

#[cfg(test)]
mod tests {
    use super::*;

    fn row(n: usize, micros: [f64; 2]) -> Row {
        Row { call: "read".into(), input: "dense".into(), n, micros, counts: None }
    }

    #[test]
    fn factors_are_of_neighbouring_sizes() {
        let rows = [row(16, [1.0, 2.0]), row(64, [4.0, 6.0]), row(256, [12.0, 60.0])];
        let growth = of(&rows);
        assert_eq!(growth.len(), 1);
        assert_eq!(growth[0].factors, [[4.0, 3.0], [3.0, 10.0]]);
    }

    #[test]
    fn what_lacks_a_size_has_no_growth() {
        assert!(of(&[row(16, [1.0, 2.0]), row(256, [12.0, 60.0])]).is_empty());
    }
}
