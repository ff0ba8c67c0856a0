//! The numbers in which the library packs its answers. Each kind has a type of its own, since 0 means something else in
//! each: a record that passed or was judged is not thereby met.

use crate::{Refusal, Rehearsed, Verdict};

/// Whether a record passed the questions: 0, or 2,097,152 + 1,024 × number + place refused. The answer of a read, and of
/// a judgment of all predicates, whose words say what was found.
#[repr(transparent)]
#[derive(Clone, Copy, Debug, PartialEq, Eq)]
#[must_use]
pub struct Reading(u64);

impl Reading {
    pub fn passed(self) -> Result<(), Refusal> {
        match self.0 {
            0 => Ok(()),
            answer => Err(refusal(answer)),
        }
    }
}

/// What was found of one predicate or model: 0 met; 1,048,576 + 1,024 × a + b broken; else refused, as a reading.
#[repr(transparent)]
#[derive(Clone, Copy, Debug, PartialEq, Eq)]
#[must_use]
pub struct Judgment(u64);

impl Judgment {
    /// For a word that is about to be written: anything but met.
    pub const UNWRITTEN: Judgment = Judgment(u64::MAX);

    pub fn verdict(self) -> Result<Verdict, Refusal> {
        match self.0 >> 20 {
            0 => Ok(Verdict::Met),
            1 => Ok(Verdict::Broken { a: upper(self.0), b: lower(self.0) }),
            _ => Err(refusal(self.0)),
        }
    }
}

/// What was told of a break: how many entries were written, 1 to 384; else refused, as a reading.
#[repr(transparent)]
#[derive(Clone, Copy, Debug, PartialEq, Eq)]
#[must_use]
pub struct Explanation(u64);

impl Explanation {
    pub fn count(self) -> Result<usize, Refusal> {
        match self.0 >> 20 {
            0 => Ok(self.0 as usize),
            _ => Err(refusal(self.0)),
        }
    }
}

/// What a rehearsal came to: number + 256 × length + 16,777,216 × outstanding.
#[repr(transparent)]
#[derive(Clone, Copy, Debug, PartialEq, Eq)]
#[must_use]
pub struct Rehearsal(u64);

impl Rehearsal {
    pub fn done(self) -> Result<Rehearsed, Refusal> {
        match self.0 & 255 {
            0 => Ok(Rehearsed { length: (self.0 >> 8 & 65535) as usize, outstanding: self.0 >> 24 }),
            number => Err(Refusal { number: number as u32, place: 0 }),
        }
    }
}

fn refusal(answer: u64) -> Refusal {
    Refusal { number: upper(answer).into(), place: lower(answer).into() }
}

fn upper(answer: u64) -> u16 {
    (answer >> 10 & 1023) as u16
}

fn lower(answer: u64) -> u16 {
    (answer & 1023) as u16
}

#[cfg(test)]
mod tests {
    use super::*;

    fn verdict(answer: u64) -> Result<Verdict, Refusal> {
        Judgment(answer).verdict()
    }

    #[test]
    fn judgments_come_apart_at_the_ends_of_their_ranges() {
        assert_eq!(verdict(0), Ok(Verdict::Met));
        assert_eq!(verdict(1_048_576), Ok(Verdict::Broken { a: 0, b: 0 }));
        assert_eq!(verdict(1_048_576 + 1_024 * 383 + 382), Ok(Verdict::Broken { a: 383, b: 382 }));
        assert_eq!(verdict(2_097_152 + 1_024), Err(Refusal { number: 1, place: 0 }));
        assert_eq!(verdict(2_097_152 + 1_024 * 10 + 383), Err(Refusal { number: 10, place: 383 }));
        assert!(Judgment::UNWRITTEN.verdict().is_err());
    }

    #[test]
    fn readings_come_apart_at_the_ends_of_their_ranges() {
        assert_eq!(Reading(0).passed(), Ok(()));
        assert_eq!(Reading(2_097_152 + 1_024).passed(), Err(Refusal { number: 1, place: 0 }));
        assert_eq!(Reading(2_097_152 + 1_024 * 10 + 383).passed(), Err(Refusal { number: 10, place: 383 }));
    }

    #[test]
    fn explanations_come_apart_at_the_ends_of_their_ranges() {
        assert_eq!([1, 384].map(|answer| Explanation(answer).count()), [Ok(1), Ok(384)]);
        assert_eq!(Explanation(2_097_152 + 1_024 * 2).count(), Err(Refusal { number: 2, place: 0 }));
        assert_eq!(Explanation(2_097_152 + 1_024 * 10 + 383).count(), Err(Refusal { number: 10, place: 383 }));
        assert_eq!(Explanation(2_097_152 + 1_024 * 42).count(), Err(Refusal { number: 42, place: 0 }));
    }

    #[test]
    fn rehearsals_come_apart_at_the_ends_of_their_ranges() {
        let most = Rehearsed { length: 33_280, outstanding: 384 * 7 };
        assert_eq!(Rehearsal(256 * 33_280 + 16_777_216 * 384 * 7).done(), Ok(most));
        assert_eq!(Rehearsal(20).done(), Err(Refusal { number: 20, place: 0 }));
    }
}
