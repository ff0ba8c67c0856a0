//! What was measured of a case.

use crate::counting::Counts;

pub struct Row {
    pub call: String,
    pub input: String,
    pub n: usize,
    /// Microseconds of the proved call and of the baseline.
    pub micros: [f64; 2],
    pub counts: Option<Counts>,
}

impl Row {
    pub const HEADS: [&'static str; 9] =
        ["call", "input", "n", "proved µs", "Rust µs", "ratio", "proved instr.", "Rust instr.", "ratio"];

    pub fn cells(&self) -> Vec<String> {
        let mut cells = vec![self.call.clone(), self.input.clone(), self.n.to_string()];
        cells.extend(self.micros.map(|micros| format!("{micros:.2}")));
        cells.push(ratio(self.micros));
        match self.counts {
            Some(counts) => {
                cells.extend(counts.map(grouped));
                cells.push(ratio(counts.map(|count| count as f64)));
            }
            None => cells.extend(["-", "-", "-"].map(String::from)),
        }
        cells
    }
}

pub fn ratio([proved, baseline]: [f64; 2]) -> String {
    format!("{:.2}", proved / baseline)
}

/// Digits in groups of three.
pub fn grouped(number: u64) -> String {
    let digits = number.to_string();
    let mut text = String::new();
    for (at, digit) in digits.chars().enumerate() {
        if at > 0 && (digits.len() - at).is_multiple_of(3) {
            text.push(',');
        }
        text.push(digit);
    }
    text
}

#[cfg(test)]
mod tests {
    use super::*;

    #[test]
    fn digits_stand_in_threes() {
        let all = [0, 999, 1_000, 12_345_678].map(grouped);
        assert_eq!(all, ["0", "999", "1,000", "12,345,678"]);
    }

    #[test]
    fn a_row_shows_both_ratios_and_a_dash_for_what_was_not_counted() {
        let mut row = Row { call: "read".into(), input: "dense".into(), n: 16, micros: [3.0, 2.0], counts: None };
        assert_eq!(row.cells(), ["read", "dense", "16", "3.00", "2.00", "1.50", "-", "-", "-"]);
        row.counts = Some([1_500, 2_000]);
        assert_eq!(row.cells()[6..], ["1,500", "2,000", "0.75"]);
    }
}
