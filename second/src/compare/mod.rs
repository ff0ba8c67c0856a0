//! Holds another implementation against the second checker.

pub mod answered;
pub mod chains;
pub mod clocks;
pub mod copies;
pub mod covers;
pub mod explain;
pub mod harvest;
pub mod held;
#[cfg(feature = "linked")]
pub mod linked;
pub mod metamorphic;
pub mod middles;
pub mod models;
pub mod must_occur;
pub mod occurrences;
pub mod opened;
pub mod programs;
pub mod reader;
pub mod rehearsal;
pub mod returned;
pub mod states;
pub mod subject;
pub mod tally;
pub mod ways;

use std::time::{Duration, Instant};
use tally::Tally;

/// Which seeds to go through, and for how long at most.
pub struct Seeds {
    pub from: u64,
    pub count: u64,
    pub seconds: u64,
}

impl Seeds {
    pub fn first(count: u64) -> Seeds {
        Seeds { from: 0, count, seconds: u64::MAX }
    }

    /// Compares seed by seed; says so where time ended the run early.
    pub fn each(&self, tally: &mut Tally, mut compare: impl FnMut(u64, &mut Tally)) {
        let begun = Instant::now();
        for done in 0..self.count {
            if begun.elapsed() >= Duration::from_secs(self.seconds) {
                println!("time is up after {done} of {} seeds", self.count);
                break;
            }
            tally.begin(self.from + done);
            compare(self.from + done, tally);
        }
        tally.end();
    }
}
