//! The reading call: result, work slice to the last word, record untouched.

use super::subject::Reader;
use super::tally::{Case, Tally};
use super::{answered, must_occur, Seeds};
use crate::generate::random::Random;
use crate::generate::sweeps::{self, Named};
use crate::generate::{self, Sample};
use crate::limits::WORK_WORDS;
use crate::models::refusal_in;
use crate::questions::ask;
use crate::record::seal;
use crate::samples;

const WORK_LENGTHS: [usize; 4] = [WORK_WORDS, WORK_WORDS + 6, WORK_WORDS - 1, 0];
const RECORD_LENGTHS: [usize; 14] =
    [0, 1, 511, 512, 513, 1_024, 19_455, 19_456, 19_457, 19_968, 33_279, 33_280, 33_281, 33_792];

pub fn compare(subject: &dyn Reader, seeds: &Seeds, tally: &mut Tally) {
    tally.occurrences.must(must_occur::READER);
    tally.occurrences.must(must_occur::EDITIONS);
    for (name, bytes) in fixed() {
        one_record(subject, 0, &Case { name: format!("reader-{name}"), input: &bytes }, tally);
    }
    seeds.each(tally, |seed, tally| {
        let Sample { family, bytes } = generate::record(seed);
        answered::edition(&bytes, ask(&bytes).err(), tally);
        let case = Case { name: format!("reader-{seed}-{family}"), input: &bytes };
        one_record(subject, seed, &case, tally);
    });
}

/// What is read before any seed's.
pub fn fixed() -> Vec<Named<Vec<u8>>> {
    let samples = samples::records().map(|sample| (sample.name, sample.bytes)).collect();
    let sweeps = [sweeps::block_0(), sweeps::harvest(), sweeps::clocks(), sweeps::never_returned()].concat();
    [lengths(), samples, sweeps].concat()
}

/// Zeros and noise of many lengths, sealed or not.
fn lengths() -> Vec<Named<Vec<u8>>> {
    let mut random = Random::new(0);
    let mut all = Vec::new();
    for length in RECORD_LENGTHS {
        for (sort, bytes) in [("zeros", vec![0; length]), ("noise", random.noise(length))] {
            let mut sealed = bytes.clone();
            seal(&mut sealed);
            all.push((format!("{sort}-{length}"), bytes));
            all.push((format!("sealed-{sort}-{length}"), sealed));
        }
    }
    all
}

pub fn one_record(subject: &dyn Reader, seed: u64, case: &Case, tally: &mut Tally) {
    let mut random = Random::new(seed);
    for words in WORK_LENGTHS {
        let mut expected: Vec<u64> = (0..words).map(|_| random.word()).collect();
        let mut work = expected.clone();
        let given = case.input.to_vec();
        let result = subject.read(&given, &mut work);
        let due = crate::reader::read(case.input, &mut expected);
        answered::reading(refusal_in(due), tally);
        tally.equal(case, &format!("result with {words} words"), &due, &result);
        let differs = work.iter().zip(&expected).position(|(got, due)| got != due);
        tally.equal(case, &format!("first differing word of {words}"), &None, &differs);
        tally.same_bytes(case, "record afterwards", case.input, &given);
    }
}
