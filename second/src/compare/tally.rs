//! What passed, what failed and what occurred, with every failing input kept as a file.

use super::occurrences::Occurrences;
use std::fs::{self, File};
use std::os::unix::fs::FileExt;
use std::path::{Path, PathBuf};

/// Enough to work from; a broken build would fill the disk otherwise.
const MOST_KEPT: u64 = 100;

/// Left behind only where a run did not come to its end.
const LAST_SEED: &str = "last-seed.txt";

#[derive(Default)]
pub struct Tally {
    pub passed: u64,
    pub failed: u64,
    pub occurrences: Occurrences,
    in_seeds: bool,
    keep: Option<PathBuf>,
    noted: Option<File>,
}

/// An input under comparison, named after its seed and family.
pub struct Case<'a> {
    pub name: String,
    pub input: &'a [u8],
}

impl Tally {
    pub fn keeping(folder: PathBuf) -> Tally {
        Tally { keep: Some(folder), ..Tally::default() }
    }

    /// Counts without writing files.
    pub fn counting() -> Tally {
        Tally::default()
    }

    pub fn check(&mut self, case: &Case, same: bool, difference: impl FnOnce() -> String) {
        if same {
            self.passed += 1;
            return;
        }
        self.failed += 1;
        if self.failed <= MOST_KEPT {
            self.report(case, &difference());
        }
    }

    /// Counts an answer that the second checker gives. Only those of seeds count: the samples have every refusal,
    /// whatever the seeds give.
    pub fn occurred(&mut self, sort: &'static str, number: u32) {
        if self.in_seeds {
            self.occurrences.count(sort, number);
        }
    }

    /// What must occur and never did is a failure each; gives the sentences that say so.
    pub fn fail_what_never_occurred(&mut self) -> Vec<String> {
        let never = self.occurrences.rarer_than(1);
        self.failed += never.len() as u64;
        never.iter().map(|answer| format!("{answer} never occurred")).collect()
    }

    /// Compares two values that can be shown.
    pub fn equal<T: PartialEq + std::fmt::Debug>(&mut self, case: &Case, what: &str, second: &T, other: &T) {
        self.check(case, second == other, || format!("{what}: second checker {second:?}, other {other:?}"));
    }

    /// Compares bytes, and shows where they first differ.
    pub fn same_bytes(&mut self, case: &Case, what: &str, second: &[u8], other: &[u8]) {
        self.check(case, second == other, || {
            let differs = second.iter().zip(other).position(|(a, b)| a != b);
            let lengths = (second.len(), other.len());
            format!("{what}: lengths {lengths:?}, first difference at {differs:?}")
        });
    }

    fn report(&self, case: &Case, difference: &str) {
        let Some(folder) = &self.keep else { return };
        println!("{}: {difference}", case.name);
        let stem = format!("{}-{}", case.name, self.failed);
        let kept = fs::create_dir_all(folder)
            .and_then(|()| fs::write(folder.join(format!("{stem}.bin")), case.input))
            .and_then(|()| fs::write(folder.join(format!("{stem}.txt")), format!("{difference}\n")));
        match kept {
            Ok(()) => println!("  kept as {}", folder.join(stem).with_extension("bin").display()),
            Err(error) => println!("  could not keep {stem}: {error}"),
        }
    }

    /// Notes the seed, so that a subject that ends the process can be found.
    pub fn begin(&mut self, seed: u64) {
        self.in_seeds = true;
        if self.noted.is_none() {
            self.noted = self.keep.as_ref().and_then(|folder| note_in(folder));
        }
        if let Some(file) = &self.noted {
            // One place in an open file: a file made anew for each seed took longer than the comparing.
            let _ = file.write_at(format!("{seed:020}\n").as_bytes(), 0);
        }
    }

    /// The run came to its end, so nothing needs to be found.
    pub fn end(&mut self) {
        self.in_seeds = false;
        if let Some(folder) = &self.keep {
            let _ = fs::remove_file(folder.join(LAST_SEED));
        }
    }

    pub fn summary(&self) -> String {
        format!("{} passed, {} failed", self.passed, self.failed)
    }
}

fn note_in(folder: &Path) -> Option<File> {
    let file = fs::create_dir_all(folder).and_then(|()| File::create(folder.join(LAST_SEED)));
    file.map_err(|error| println!("cannot note seeds: {error}")).ok()
}
