//! The comparers find deliberate faults with harvest records: each is one that an implementation of the older editions
//! might have kept, or one of the new layout.

use second::compare::subject::{Baseline, Explainer, Itself, Judge, Reader, Rehearser};
use second::compare::tally::{Case, Tally};
use second::compare::{explain, models, reader, rehearsal, Seeds};
use second::generate::sweeps::{self, Named};
use second::limits::*;
use second::models::{refusal_in, refused, BROKEN, MET, REFUSED};
use second::questions::{ask, Refusal};
use second::record::*;
use second::samples;
use second::store::{Call, Outcome, Store, CALL_BYTES};

/// What a faulty reading answers, from the record, the slice as it was lent, and what the right one answered and left.
type Reading = fn(&[u8], &[u64], u64, &mut [u64]) -> u64;

struct FaultyReader(Reading);

impl Reader for FaultyReader {
    fn read(&self, record: &[u8], work: &mut [u64]) -> u64 {
        let lent = work.to_vec();
        let right = Baseline.read(record, work);
        (self.0)(record, &lent, right, work)
    }
}

/// Whether one of the comparer's fixed records tells.
fn found(fixed: &[Named<Vec<u8>>], reading: Reading) -> bool {
    fixed.iter().any(|(name, bytes)| {
        let mut tally = Tally::counting();
        reader::one_record(&FaultyReader(reading), 0, &Case { name: name.clone(), input: bytes }, &mut tally);
        tally.failed > 0
    })
}

/// Whether a right answer came after this question, or refuses by it.
fn asked(right: u64, number: u32) -> bool {
    refusal_in(right).is_none_or(|refusal| refusal.number >= number)
}

fn older(record: &[u8]) -> bool {
    Edition::of(record).is_some_and(|edition| edition != Edition::GCR3)
}

fn at(number: u32, place: usize) -> u64 {
    refused(Refusal { number, place: place as u32 })
}

/// Clears the words that question 1 asks for, as a refusal does.
fn clear(work: &mut [u64]) {
    let asked_for = work.len().min(WORK_WORDS);
    work[..asked_for].fill(0);
}

/// Refuses by 7 where a block has a byte from here on to its check that isn't zero, and its slots are so many.
fn tail_from(byte: usize, slots: usize, record: &[u8], right: u64, work: &mut [u64]) -> u64 {
    let mut blocks = record.chunks_exact(BLOCK_BYTES).skip(1);
    let wrong = blocks.position(|block| block[byte..CHECKED_BYTES].iter().any(|&byte| byte != 0));
    let refusal = wrong.map(|block| at(7, slots * block + slots - 1));
    match refusal {
        Some(refusal) if asked(right, 7) && (right == MET || refusal < right) => {
            clear(work);
            refusal
        }
        _ => right,
    }
}

const OF_LAYOUT: [(&str, Reading); 8] = [
    ("seven slots a block in GCR3", |record, _, right, work| {
        let blocks = |record: &[u8]| 1 + event_count(record).div_ceil(7) == record.len() / BLOCK_BYTES;
        if Edition::of(record) != Some(Edition::GCR3) || !asked(right, 6) || blocks(record) {
            return right;
        }
        clear(work);
        at(6, 0)
    }),
    ("tail of GCR3 from byte 448", |record, _, right, work| match older(record) {
        false => tail_from(448, 6, record, right, work),
        true => right,
    }),
    ("tail of older editions from byte 480", |record, _, right, work| {
        if !older(record) || refusal_in(right).is_none_or(|refusal| refusal.number != 7) {
            return right;
        }
        let mut taken = record.to_vec();
        taken.chunks_exact_mut(BLOCK_BYTES).skip(1).for_each(|block| block[448..480].fill(0));
        seal(&mut taken);
        Baseline.read(&taken, work)
    }),
    ("tail of GCR3 overlooked", |record, _, right, work| {
        if older(record) || refusal_in(right).is_none_or(|refusal| refusal.number != 7) {
            return right;
        }
        let mut taken = record.to_vec();
        taken.chunks_exact_mut(BLOCK_BYTES).skip(1).for_each(|block| block[480..CHECKED_BYTES].fill(0));
        seal(&mut taken);
        Baseline.read(&taken, work)
    }),
    ("places in a byte", |_, _, right, _| match refusal_in(right) {
        Some(refusal) => at(refusal.number, refusal.place as usize % 256),
        None => right,
    }),
    ("no ring looked for from event 256 on", |_, _, right, _| match refusal_in(right) {
        Some(Refusal { number: 10, place: 256.. }) => MET,
        _ => right,
    }),
    ("block 0 of GCR3 as of GCR1", |record, _, right, work| {
        let mut taken = record.to_vec();
        if !asked(right, 5) || Edition::of(record) != Some(Edition::GCR3) {
            return right;
        }
        taken[8..144].fill(0);
        if taken[8..144] == record[8..144] {
            return right;
        }
        clear(work);
        at(5, 0)
    }),
    ("GCR3 as of no edition", |record, _, right, work| {
        if !asked(right, 5) || Edition::of(record) != Some(Edition::GCR3) {
            return right;
        }
        clear(work);
        at(5, 0)
    }),
];

const OF_LIMITS: [(&str, Reading); 8] = [
    ("384 events in GCR2", |record, _, right, _| {
        let more = record.starts_with(b"GCR2") && (257..=384).contains(&event_count(record));
        if more && right == at(5, 0) {
            MET
        } else {
            right
        }
    }),
    ("256 events in GCR3", |record, _, right, work| {
        if !asked(right, 5) || older(record) || event_count(record) <= 256 {
            return right;
        }
        clear(work);
        at(5, 0)
    }),
    ("383 events in GCR3", |record, _, right, work| {
        if !asked(right, 5) || older(record) || event_count(record) != 384 {
            return right;
        }
        clear(work);
        at(5, 0)
    }),
    ("385 events in GCR3", |record, _, right, _| {
        let one_more = record.starts_with(b"GCR3") && event_count(record) == 385;
        if one_more && right == at(5, 0) {
            at(6, 0)
        } else {
            right
        }
    }),
    ("19,456 bytes of an older edition", |record, _, right, _| {
        if older(record) && record.len() > 19_456 && asked(right, 3) {
            at(3, 0)
        } else {
            right
        }
    }),
    ("19,456 bytes of any", |record, _, right, work| {
        if record.len() <= 19_456 || !asked(right, 3) {
            return right;
        }
        clear(work);
        at(3, 0)
    }),
    ("33,792 bytes", |record, _, right, _| match record.len() {
        33_792 if right == at(3, 0) => at(4, 0),
        _ => right,
    }),
    ("32,768 bytes", |record, _, right, work| {
        if record.len() != 33_280 || !asked(right, 3) {
            return right;
        }
        clear(work);
        at(3, 0)
    }),
];

/// What stays of a reading that passed.
fn passed(right: u64, work: &mut [u64], change: impl FnOnce(&mut [u64])) -> u64 {
    if right == MET {
        change(work);
    }
    right
}

const OF_ROWS: [(&str, Reading); 6] = [
    ("an older edition's row in words 4e on", |record, _, right, work| {
        passed(right, work, |work| {
            if older(record) {
                let right = work[..WORK_WORDS].to_vec();
                work[..WORK_WORDS].fill(0);
                for (event, row) in right.chunks_exact(ROW_WORDS).enumerate().take(256) {
                    work[4 * event..][..4].copy_from_slice(&row[..4]);
                }
            }
        })
    }),
    ("four words of a row of GCR3", |_, _, right, work| {
        passed(right, work, |work| work[..WORK_WORDS].chunks_exact_mut(ROW_WORDS).for_each(|row| row[4..].fill(0)))
    }),
    ("five words of a row of GCR3", |_, _, right, work| {
        passed(right, work, |work| work[..WORK_WORDS].chunks_exact_mut(ROW_WORDS).for_each(|row| row[5] = 0))
    }),
    ("1,024 words asked for", |record, _, right, work| match work.len() {
        1_024..WORK_WORDS => {
            let mut long = vec![0; WORK_WORDS];
            let answer = Baseline.read(record, &mut long);
            let words = work.len();
            work.copy_from_slice(&long[..words]);
            answer
        }
        _ => right,
    }),
    ("an older edition's rows settled up to word 1,024", |record, lent, right, work| {
        passed(right, work, |work| {
            let last = ROW_WORDS * event_count(record);
            if older(record) && last < 1_024 {
                work[1_024..WORK_WORDS].copy_from_slice(&lent[1_024..WORK_WORDS]);
            }
        })
    }),
    ("a refusal clears 1,024 words", |_, lent, right, work| {
        if right >= REFUSED && work.len() >= WORK_WORDS {
            work[1_024..].copy_from_slice(&lent[1_024..]);
        }
        right
    }),
];

#[test]
fn faults_of_a_reader() {
    let fixed = reader::fixed();
    assert!(!found(&fixed, |_, _, right, _| right));
    for (name, reading) in OF_LAYOUT.into_iter().chain(OF_LIMITS).chain(OF_ROWS) {
        assert!(found(&fixed, reading), "{name}");
    }
}

/// And the records of seeds tell these without the fixed ones.
#[test]
fn seeds_tell_a_reader_too() {
    let seeds: Vec<Named<Vec<u8>>> =
        (0..1_500).map(|seed| (seed.to_string(), second::generate::record(seed).bytes)).collect();
    for (name, reading) in OF_LAYOUT.into_iter().chain(OF_LIMITS).chain(OF_ROWS) {
        assert!(found(&seeds, reading), "{name}");
    }
}

/// Something done to what a judging call answers; explaining is right but for a slice of some lengths.
struct FaultyJudge {
    answered: fn(u64) -> u64,
    entries: usize,
}

impl Judge for FaultyJudge {
    fn judge_model(&self, model: u32, bytes: &[u8]) -> u64 {
        (self.answered)(Baseline.judge_model(model, bytes))
    }

    fn judge_predicate(&self, predicate: u32, bytes: &[u8]) -> u64 {
        (self.answered)(Baseline.judge_predicate(predicate, bytes))
    }

    fn judge_all(&self, bytes: &[u8], out: &mut [u64]) -> u64 {
        let right = Baseline.judge_all(bytes, out);
        out.iter_mut().take(13).for_each(|word| *word = (self.answered)(*word));
        right
    }
}

impl Explainer for FaultyJudge {
    fn explain(&self, predicate: u32, bytes: &[u8], events: &mut [u16]) -> u64 {
        let mut long = events.to_vec();
        long.resize(events.len().max(ENTRIES), 7);
        match (events.len() >= self.entries, Baseline.explain(predicate, bytes, &mut long)) {
            (false, _) => Baseline.explain(predicate, bytes, events),
            (true, answer) => {
                let kept = events.len();
                events.copy_from_slice(&long[..kept]);
                answer
            }
        }
    }
}

/// Numbers of events as a byte holds them.
fn in_a_byte(answer: u64) -> u64 {
    match answer {
        BROKEN..REFUSED => BROKEN + (answer / 1_024 % 256) * 1_024 + answer % 256,
        _ => answer,
    }
}

#[test]
fn faults_of_a_judge() {
    let failures = |answered| {
        let mut tally = Tally::counting();
        models::compare(&FaultyJudge { answered, entries: ENTRIES }, &Seeds::first(150), &mut tally);
        tally.failed
    };
    assert_eq!(failures(|answer| answer), 0);
    assert!(failures(in_a_byte) > 0, "events in a byte");
}

#[test]
fn faults_of_a_slice_of_entries() {
    let bytes = samples::in_turn(9).to_bytes();
    let failures = |entries| {
        let mut tally = Tally::counting();
        let case = Case { name: String::new(), input: &bytes };
        explain::one_record(&FaultyJudge { answered: |answer| answer, entries }, 0, &case, &mut tally);
        tally.failed
    };
    assert_eq!(failures(384), 0);
    assert!(failures(256) > 0, "256 entries will do");
    assert!(failures(383) > 0, "383 entries will do");
}

/// A store that refuses puts and gets from so many events on.
struct Early(usize);

impl Rehearser for Early {
    fn rehearse(&self, sites: u32, openings: &[u8], script: &[u8], record: &mut [u8], answers: &mut [u8]) -> u64 {
        let right = Itself.rehearse(sites, openings, script, &mut record.to_vec(), &mut answers.to_vec());
        if Outcome::unpacked(right).number != 0 {
            return right;
        }
        let opened = second::openings::Openings::from_bytes(openings).expect("40 passed");
        let mut store = Store::opened(sites as usize, opened);
        for (call, answer) in script.chunks_exact(CALL_BYTES).zip(answers.chunks_exact_mut(CALL_BYTES)) {
            let event = matches!(Call::from_bytes(call), Some(Call::Put { .. } | Call::Get { .. }));
            let full = event && store.events() >= self.0;
            let no = Call::from_bytes(call).filter(|_| full).and_then(|call| store.first_no(call));
            match full {
                true => answer.copy_from_slice(&[no.unwrap_or(34), 0, 0, 0, 0, 0, 0, 0]),
                false => answer.copy_from_slice(&store.call(call)),
            }
        }
        let bytes = store.record().to_bytes();
        record[..bytes.len()].copy_from_slice(&bytes);
        Outcome { number: 0, length: bytes.len(), outstanding: store.outstanding() }.packed()
    }
}

/// What a faulty rehearsal makes of the right result and buffers.
type Rehearsing = fn(u64, &mut [u8], &mut [u8]) -> u64;

struct FaultyStore(Rehearsing);

impl Rehearser for FaultyStore {
    fn rehearse(&self, sites: u32, openings: &[u8], script: &[u8], record: &mut [u8], answers: &mut [u8]) -> u64 {
        let right = Itself.rehearse(sites, openings, script, record, answers);
        (self.0)(right, record, answers)
    }
}

/// Takes a shorter record buffer, if the record fits.
struct ShortBuffer(usize);

impl Rehearser for ShortBuffer {
    fn rehearse(&self, sites: u32, openings: &[u8], script: &[u8], record: &mut [u8], answers: &mut [u8]) -> u64 {
        let mut long = record.to_vec();
        long.resize(record.len().max(MOST_BYTES), 7);
        if record.len() < self.0 {
            return Itself.rehearse(sites, openings, script, record, answers);
        }
        let result = Itself.rehearse(sites, openings, script, &mut long, answers);
        let kept = record.len();
        record.copy_from_slice(&long[..kept]);
        result
    }
}

/// Whether one of the comparer's rehearsals of full stores tells.
fn told(subject: &dyn Rehearser) -> bool {
    sweeps::full_stores().into_iter().any(|(name, given)| {
        let mut tally = Tally::counting();
        rehearsal::one(subject, 0, &given, name, &mut tally);
        tally.failed > 0
    })
}

#[test]
fn faults_of_a_store() {
    assert!(!told(&Early(384)) && !told(&FaultyStore(|right, _, _| right)) && !told(&ShortBuffer(MOST_BYTES)));
    assert!(told(&Early(383)), "34 one event early");
    assert!(told(&Early(256)), "34 as before");
    assert!(told(&ShortBuffer(33_279)) && told(&ShortBuffer(19_456)), "22");
    let events_in_a_byte: Rehearsing = |right, _, answers| {
        answers.chunks_exact_mut(CALL_BYTES).for_each(|answer| answer[3] = 0);
        right
    };
    assert!(told(&FaultyStore(events_in_a_byte)));
    let older_edition: Rehearsing = |right, record, _| {
        let Outcome { number, length, outstanding } = Outcome::unpacked(right);
        match ask(&record[..length]) {
            Ok(left) if number == 0 && left.events.len() <= 256 => {
                let bytes = left.in_edition(Edition::GCR2).to_bytes();
                record[..bytes.len()].copy_from_slice(&bytes);
                Outcome { number, length: bytes.len(), outstanding }.packed()
            }
            _ => right,
        }
    };
    assert!(told(&FaultyStore(older_edition)), "GCR2 where it has room");
    let cut: Rehearsing = |right, record, _| {
        record.iter_mut().skip(19_456).for_each(|byte| *byte = 7);
        right
    };
    assert!(told(&FaultyStore(cut)), "no byte past 19,456 written");
}
