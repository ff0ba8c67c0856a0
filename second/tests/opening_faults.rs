//! The comparers find deliberate faults with editions and openings, and their fixed inputs leave no byte out.

use second::compare::subject::{Baseline, Itself, Reader, Rehearser};
use second::compare::tally::{Case, Tally};
use second::compare::{reader, rehearsal, Seeds};
use second::generate::sweeps::{self, Named};
use second::openings::{Openings, OPENINGS_BYTES};
use second::predicates::Answer::{Broken, Met};
use second::predicates::Judged;
use second::questions::ask;
use second::record::{seal, CHECKED_BYTES, OPENINGS_AT};
use second::store::Outcome;
use std::collections::HashMap;

/// The number that refuses a record, or else whether predicates 1, 3 and 4 are met.
fn answer(bytes: &[u8]) -> Result<[bool; 3], u32> {
    let record = ask(bytes).map_err(|refusal| refusal.number)?;
    let judged = Judged::new(&record);
    Ok([1, 3, 4].map(|predicate| judged.answer(predicate) == Met))
}

#[test]
fn no_byte_of_block_0_is_left_out() {
    let answers: HashMap<String, Result<[bool; 3], u32>> =
        sweeps::block_0().into_iter().map(|(name, bytes)| (name, answer(&bytes))).collect();
    let unturned = Ok([true, false, false]);
    let of = |letters: &str, sorts: &[&str]| sorts.iter().map(|sort| format!("{letters}-{sort}")).collect::<Vec<_>>();
    let (old, all) = (vec!["gcr1".to_string()], ["none", "even", "odd", "all"]);
    for edition in [old.clone(), of("gcr2", &all), of("gcr3", &all)].concat() {
        assert_eq!(answers[&edition], unturned);
    }
    for edition in [old, of("gcr2", &all[1..3]), of("gcr3", &all[1..3])].concat() {
        for at in 0..CHECKED_BYTES {
            let turned = answers[&format!("{edition}-byte-{at}")];
            match at {
                _ if edition == "gcr1" && at != 4 => assert_eq!(turned, Err(5), "{edition}, byte {at}"),
                4 => assert_eq!(turned, Err(6)),
                8..12 => assert_eq!(turned, Ok([true; 3]), "{edition}, byte {at}"),
                12..144 => assert_ne!(turned, unturned, "{edition}, byte {at}"),
                _ => assert_eq!(turned, Err(5), "{edition}, byte {at}"),
            }
        }
    }
}

/// Every object has a value under its clear bit in one sweep, and another opening than its read holds in the other.
#[test]
fn no_object_is_left_out() {
    for letters in ["gcr2", "gcr3"] {
        assert_eq!(found_of_objects(letters), [[4, 4]; 32], "{letters}");
    }
}

fn found_of_objects(letters: &str) -> [[u32; 2]; 32] {
    let mut found = [[0; 2]; 32];
    for (name, bytes) in sweeps::block_0() {
        let Some((_, at)) = name.split_once("-byte-") else { continue };
        let at: usize = at.parse().expect("a number");
        if name.starts_with(letters) && (16..144).contains(&at) {
            let object = (at - 16) / 4;
            match ask(&bytes) {
                Err(_) => found[object][0] += 1,
                Ok(record) => {
                    assert_eq!(Judged::new(&record).answer(1), Broken(object, object));
                    found[object][1] += 1;
                }
            }
        }
    }
    found
}

/// Takes a byte of block 0 for zero, where these are the letters.
struct Overlooking(&'static [u8; 4], usize);

impl Reader for Overlooking {
    fn read(&self, record: &[u8], work: &mut [u64]) -> u64 {
        let mut taken = record.to_vec();
        let sealed = ask(record).map_or_else(|refusal| refusal.number > 4, |_| true);
        if sealed && record.starts_with(self.0) {
            taken[self.1] = 0;
            seal(&mut taken);
        }
        Baseline.read(&taken, work)
    }
}

/// Takes other letters for these.
struct Misreading(&'static [u8; 4], &'static [u8; 4]);

impl Reader for Misreading {
    fn read(&self, record: &[u8], work: &mut [u64]) -> u64 {
        let mut taken = record.to_vec();
        let sealed = ask(record).map_or_else(|refusal| refusal.number > 4, |_| true);
        if sealed && record.starts_with(self.0) {
            taken[..4].copy_from_slice(self.1);
            seal(&mut taken);
        }
        Baseline.read(&taken, work)
    }
}

/// Whether one of the comparer's fixed records tells.
fn found(fixed: &[Named<Vec<u8>>], subject: &dyn Reader) -> bool {
    fixed.iter().any(|(name, bytes)| {
        let mut tally = Tally::counting();
        reader::one_record(subject, 0, &Case { name: name.clone(), input: bytes }, &mut tally);
        tally.failed > 0
    })
}

#[test]
fn faults_of_a_reader() {
    let fixed = reader::fixed();
    let found = |subject: &dyn Reader| found(&fixed, subject);
    for at in [7, 144, 147, 148, 507] {
        assert!(found(&Overlooking(b"GCR1", at)), "GCR1, byte {at}");
        assert!(found(&Overlooking(b"GCR2", at)), "GCR2, byte {at}");
        assert!(found(&Overlooking(b"GCR3", at)), "GCR3, byte {at}");
    }
    for at in [8, 9, 10, 11, 12, 15, 16, 143] {
        assert!(found(&Overlooking(b"GCR1", at)), "GCR1, byte {at}");
    }
    for at in [16, 17, 18, 19, 140, 143] {
        assert!(found(&Overlooking(b"GCR2", at)), "GCR2, byte {at}");
        assert!(found(&Overlooking(b"GCR3", at)), "GCR3, byte {at}");
    }
    assert!(!found(&Misreading(b"GCR2", b"GCR2")));
    for (letters, taken) in
        [(b"GCR2", b"GCR3"), (b"GCR1", b"GCR2"), (b"GCR3", b"GCR2"), (b"GCR4", b"GCR3"), (b"GCR0", b"GCR1")]
    {
        assert!(found(&Misreading(letters, taken)), "{}", letters.escape_ascii());
    }
}

/// The right store, but for what it makes of its openings.
struct WrongOpenings<F>(F);

impl<F: Fn(&[u8]) -> Vec<u8>> Rehearser for WrongOpenings<F> {
    fn rehearse(&self, sites: u32, openings: &[u8], script: &[u8], record: &mut [u8], answers: &mut [u8]) -> u64 {
        Itself.rehearse(sites, &self.0(openings), script, record, answers)
    }
}

/// The same, with the right openings in the record for all that.
struct WrongCells<F>(F);

impl<F: Fn(&[u8]) -> Vec<u8>> Rehearser for WrongCells<F> {
    fn rehearse(&self, sites: u32, openings: &[u8], script: &[u8], record: &mut [u8], answers: &mut [u8]) -> u64 {
        let right = Itself.rehearse(sites, openings, script, &mut record.to_vec(), &mut answers.to_vec());
        if Outcome::unpacked(right).number != 0 {
            return right;
        }
        Itself.rehearse(sites, &self.0(openings), script, record, answers);
        record[OPENINGS_AT].copy_from_slice(openings);
        seal(&mut record[..Outcome::unpacked(right).length]);
        right
    }
}

/// Something done to what the right store leaves.
struct Wrong(fn(&[u8], u64, &mut [u8], &mut [u8]) -> u64);

impl Rehearser for Wrong {
    fn rehearse(&self, sites: u32, openings: &[u8], script: &[u8], record: &mut [u8], answers: &mut [u8]) -> u64 {
        let right = Itself.rehearse(sites, openings, script, record, answers);
        self.0(openings, right, record, answers)
    }
}

/// Asks 40 before another question.
struct Early(u32);

impl Rehearser for Early {
    fn rehearse(&self, sites: u32, openings: &[u8], script: &[u8], record: &mut [u8], answers: &mut [u8]) -> u64 {
        let (mut kept, mut kept_answers) = (record.to_vec(), answers.to_vec());
        let right = Itself.rehearse(sites, openings, script, &mut kept, &mut kept_answers);
        if right == self.0 as u64 && Openings::from_bytes(openings).is_none() {
            return 40;
        }
        record.copy_from_slice(&kept);
        answers.copy_from_slice(&kept_answers);
        right
    }
}

fn failures(subject: &dyn Rehearser, seeds: u64) -> u64 {
    let mut tally = Tally::counting();
    rehearsal::compare(subject, &Seeds::first(seeds), &mut tally);
    tally.failed
}

fn without_values_under_clear_bits(bytes: &[u8]) -> Vec<u8> {
    let mut taken = bytes.to_vec();
    if taken.len() == OPENINGS_BYTES {
        for object in (0..32).filter(|object| bytes[object / 8] >> (object % 8) & 1 == 0) {
            taken[4 + 4 * object..][..4].fill(0);
        }
    }
    taken
}

fn resized(bytes: &[u8]) -> Vec<u8> {
    let mut taken = bytes.to_vec();
    taken.resize(OPENINGS_BYTES, 0);
    taken
}

#[test]
fn faults_of_refusing_openings() {
    assert_eq!(failures(&WrongOpenings(<[u8]>::to_vec), 30), 0);
    assert!(failures(&WrongOpenings(resized), 0) > 0, "any length");
    assert!(failures(&WrongOpenings(|bytes: &[u8]| bytes[..bytes.len().min(132)].to_vec()), 0) > 0, "too long");
    assert!(failures(&WrongOpenings(without_values_under_clear_bits), 0) > 0, "values under clear bits");
    for number in 20..=23 {
        assert!(failures(&Early(number), 0) > 0, "40 before {number}");
    }
    let buffers = |_: &[u8], right, record: &mut [u8], _: &mut [u8]| {
        if right == 40 {
            record.fill(0);
        }
        right
    };
    assert!(failures(&Wrong(buffers), 0) > 0, "a refusal that clears");
}

#[test]
fn faults_of_openings_in_the_store() {
    let lost = |object: usize| {
        move |bytes: &[u8]| {
            let openings = Openings::from_bytes(bytes).map(|openings| openings.without(object).to_bytes().to_vec());
            openings.unwrap_or(bytes.to_vec())
        }
    };
    assert_eq!(failures(&WrongCells(<[u8]>::to_vec), 30), 0);
    for object in [0, 1, 15, 16, 31] {
        assert!(failures(&WrongCells(lost(object)), 0) > 0, "object {object} in the cells");
        assert!(failures(&WrongOpenings(lost(object)), 0) > 0, "object {object}");
    }
    let old_letters = |openings: &[u8], right, record: &mut [u8], _: &mut [u8]| {
        let Outcome { number, length, .. } = Outcome::unpacked(right);
        if number == 0 && openings.iter().all(|&byte| byte == 0) {
            record[3] = b'1';
            seal(&mut record[..length]);
        }
        right
    };
    assert!(failures(&Wrong(old_letters), 0) > 0, "GCR1 where there are no openings");
}
