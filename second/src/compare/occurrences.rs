//! How often each answer occurred in a run, and which of those that must occur never did.

use std::collections::BTreeMap;

/// Answers of one sort that a run must meet, by their numbers in the paper; 0 is an answer that refuses nothing.
pub type Row = (&'static str, &'static [u32]);

/// The rows of a run's table, in the order in which they were first named.
#[derive(Default)]
pub struct Occurrences {
    rows: Vec<(&'static str, BTreeMap<u32, u64>)>,
}

impl Occurrences {
    /// Lists what must occur, so far 0 times.
    pub fn must(&mut self, rows: &[Row]) {
        for &(sort, numbers) in rows {
            for &number in numbers {
                self.times(sort, number);
            }
        }
    }

    pub fn count(&mut self, sort: &'static str, number: u32) {
        *self.times(sort, number) += 1;
    }

    fn times(&mut self, sort: &'static str, number: u32) -> &mut u64 {
        let at = self.rows.iter().position(|row| row.0 == sort).unwrap_or_else(|| {
            self.rows.push((sort, BTreeMap::new()));
            self.rows.len() - 1
        });
        self.rows[at].1.entry(number).or_default()
    }

    /// A line for each sort: every number, and how often it occurred.
    pub fn table(&self) -> String {
        let width = self.rows.iter().map(|row| row.0.len()).max().unwrap_or(0);
        let line = |(sort, numbers): &(&str, BTreeMap<u32, u64>)| {
            let columns: Vec<String> = numbers.iter().map(|(number, times)| format!("{number}: {times}")).collect();
            format!("  {sort:width$}  {}\n", columns.join(", "))
        };
        self.rows.iter().map(line).collect()
    }

    /// The answers that occurred fewer times than this, each as its sort and number.
    pub fn rarer_than(&self, times: u64) -> Vec<String> {
        let all = self.rows.iter().flat_map(|(sort, numbers)| numbers.iter().map(move |column| (sort, column)));
        let rare = all.filter(|(_, (_, &occurred))| occurred < times);
        rare.map(|(sort, (number, _))| format!("{sort}: {number}")).collect()
    }
}
