//! A record that was looked at.

use super::doubles::Mark;
use super::named::Named;
use super::telling::{Teller, Told};
use crate::ending::{Ending, Failure};
use gcr::{count, RECORD_MOST};

pub struct Looked {
    pub told: Result<Told, Failure>,
    /// Of one that passed its questions.
    pub passed: Option<Passed>,
}

pub struct Passed {
    pub mark: Mark,
    pub is_empty: bool,
}

impl Looked {
    pub fn at(named: &Named, teller: &impl Teller) -> Looked {
        let name = named.source.name();
        match named.read(RECORD_MOST + 1) {
            Err(why) => Looked { told: teller.unread(&name, &why), passed: None },
            Ok(bytes) => {
                let told = teller.read(&name, &bytes);
                let passed = || Passed { mark: Mark::of(&bytes), is_empty: count(&bytes) == 0 };
                let has_passed = ending(&told) <= Ending::Broken;
                Looked { told, passed: has_passed.then(passed) }
            }
        }
    }

    pub fn ending(&self) -> Ending {
        ending(&self.told)
    }
}

fn ending(told: &Result<Told, Failure>) -> Ending {
    match told {
        Ok(told) => told.ending,
        Err(failure) => failure.ending,
    }
}
