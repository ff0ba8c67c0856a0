//! Change 8, harvest records: every edge by hand.

mod calls;

use calls::{deliver, get, put, run, script};
use second::compare::subject::{Baseline, Explainer, Itself, Judge, Reader, Rehearser};
use second::explain::explanations;
use second::generate::later::numbered_later;
use second::generate::random::Random;
use second::generate::shapes;
use second::generate::sweeps::{self, seeing_back};
use second::limits::*;
use second::lines;
use second::models::{refused, MET};
use second::openings::{Openings, OPENINGS_BYTES};
use second::predicates::Answer::{self, Broken, Met};
use second::predicates::Judged;
use second::questions::{ask, Refusal};
use second::record::*;
use second::samples::in_turn;
use second::store::Call::{self, Close};
use second::store::{rehearse, Outcome};
use std::collections::HashMap;

fn number(bytes: &[u8]) -> (u32, u32) {
    ask(bytes).err().map_or((0, 0), |refusal| (refusal.number, refusal.place))
}

fn in_edition(edition: Edition, n: usize) -> Record {
    Record { edition, ..seeing_back(n) }
}

/// With bytes changed, and sealed again.
fn changed(record: &Record, change: impl Fn(&mut Vec<u8>)) -> Vec<u8> {
    let mut bytes = record.to_bytes();
    change(&mut bytes);
    seal(&mut bytes);
    bytes
}

#[test]
fn numbers_of_the_paper() {
    assert_eq!((MOST_EVENTS, MOST_BYTES, ROW_WORDS, WORK_WORDS, ENTRIES), (384, 33_280, 6, 2_304, 384));
    let laid_out =
        |edition: Edition| (edition.slot_bytes, edition.block_slots, edition.slots_end(), edition.most_events);
    assert_eq!(laid_out(Edition::GCR1), (64, 7, 448, 256));
    assert_eq!(laid_out(Edition::GCR2), (64, 7, 448, 256));
    assert_eq!(laid_out(Edition::GCR3), (80, 6, 480, 384));
    assert_eq!([Edition::GCR2, Edition::GCR3].map(|edition| edition.most_bytes()), [19_456, 33_280]);
}

/// 1 + (n/6 rounded up) in the last edition, 1 + (n/7 rounded up) in the others.
#[test]
fn blocks_go_by_the_edition() {
    let blocks = |edition, n| in_edition(edition, n).to_bytes().len() / 512;
    assert_eq!([0, 1, 6, 7, 12, 13, 383, 384].map(|n| blocks(Edition::GCR3, n)), [1, 2, 2, 3, 3, 4, 65, 65]);
    assert_eq!([0, 1, 6, 7, 8, 14, 256].map(|n| blocks(Edition::GCR2, n)), [1, 2, 2, 2, 3, 3, 38]);
    for edition in Edition::ALL {
        for n in [0, 1, 6, 7, 8, 12, 13, 14, 255, 256] {
            let record = in_edition(edition, n);
            assert_eq!(number(&record.to_bytes()), (0, 0), "{n} events");
            let more = changed(&record, |bytes| bytes.resize(bytes.len() + 512, 0));
            assert_eq!(number(&more), (6, 0));
            assert_eq!(Record::from_bytes(&record.to_bytes()), record);
        }
    }
}

#[test]
fn event_count_goes_by_the_edition() {
    let counted = |edition, n: u16| {
        let full = in_edition(edition, edition.most_events);
        number(&changed(&full, |bytes| bytes[4..6].copy_from_slice(&n.to_le_bytes())))
    };
    for edition in [Edition::GCR1, Edition::GCR2] {
        assert_eq!([256, 257, 384, 385].map(|n| counted(edition, n).0), [0, 5, 5, 5]);
        // As many slots as these would need don't help.
        for n in [257, 300, 384] {
            let record = in_edition(edition, n);
            assert_eq!((record.to_bytes().len(), number(&record.to_bytes())), (512 * (1 + n.div_ceil(7)), (5, 0)));
        }
    }
    assert_eq!([256, 257, 383, 384, 385, 0xffff].map(|n| counted(Edition::GCR3, n).0), [6, 6, 7, 0, 5, 5]);
    assert_eq!(number(&in_edition(Edition::GCR3, 385).to_bytes()), (3, 0), "66 blocks");
}

#[test]
fn length_limit_serves_every_edition() {
    let of_blocks = |edition, n, blocks: usize| {
        let record = in_edition(edition, n);
        number(&changed(&record, |bytes| bytes.resize(512 * blocks, 0)))
    };
    for edition in Edition::ALL {
        assert_eq!([38, 39, 64, 65, 66].map(|blocks| of_blocks(edition, 3, blocks).0), [6, 6, 6, 6, 3]);
    }
    // What was too long for any record is asked 4, 5 and 6 now.
    let stretched = |change: fn(&mut Vec<u8>)| {
        let mut bytes = changed(&in_edition(Edition::GCR2, 256), |bytes| bytes.resize(33_280, 0));
        change(&mut bytes);
        number(&bytes)
    };
    assert_eq!(stretched(|_| ()), (6, 0));
    assert_eq!(stretched(|bytes| bytes[64 * 512 + 9] ^= 1), (4, 64));
    let one_more = |bytes: &mut Vec<u8>| {
        bytes[4] = 1;
        seal(bytes);
    };
    assert_eq!(stretched(one_more), (5, 0));
    for bytes in [19_455, 19_457, 33_279, 33_281, 33_792] {
        assert_eq!(number(&vec![0; bytes]), (3, 0), "{bytes}");
    }
    assert_eq!([19_456, 19_968, 33_280].map(|bytes| number(&vec![0; bytes]).0), [4; 3]);
}

#[test]
fn slots_of_80_bytes_hold_384_bits() {
    let mut event = Event::write(3, 4, 5).at(6, 7).sees(&[0, 255, 256, 319, 320, 383]);
    event.position = 0x0102;
    let slot = event.to_slot(Edition::GCR3);
    assert_eq!(slot.len(), 80);
    assert_eq!(slot[..32], event.to_slot(Edition::GCR1)[..32]);
    let set: Vec<(usize, u8)> = (32..80).map(|at| (at, slot[at])).filter(|byte| byte.1 != 0).collect();
    assert_eq!(set, [(32, 1), (63, 0x80), (64, 1), (71, 0x80), (72, 1), (79, 0x80)]);
    assert_eq!(Event::from_slot(&slot), event);
    let older = Event::from_slot(&event.to_slot(Edition::GCR2));
    assert_eq!(older, Event { visible: [false; 384], ..event }.sees(&[0, 255]));
    // Slots 5 and 6 lie on either side of a block's end.
    assert_eq!([0, 5, 6, 383].map(|slot| Edition::GCR3.slot_start(slot)), [512, 912, 1_024, 33_168]);
    assert_eq!([0, 5, 6, 7, 255].map(|slot| Edition::GCR2.slot_start(slot)), [512, 832, 896, 1_024, 19_136]);
}

#[test]
fn tail_begins_behind_the_last_slot() {
    let with_byte = |edition, n, block: usize, at: usize| {
        number(&changed(&in_edition(edition, n), |bytes| bytes[512 * block + at] ^= 1))
    };
    for at in 480..508 {
        assert_eq!(with_byte(Edition::GCR3, 8, 1, at), (7, 5), "byte {at}");
        assert_eq!(with_byte(Edition::GCR3, 8, 2, at), (7, 11), "byte {at}");
        assert_eq!(with_byte(Edition::GCR2, 8, 2, at), (7, 13), "byte {at}");
    }
    for at in 448..480 {
        // In the last edition these bytes are the fifth slot's visible set, from event 128 on.
        assert_eq!(with_byte(Edition::GCR3, 8, 1, at), (9, 5), "byte {at}");
        assert_eq!(with_byte(Edition::GCR3, 8, 2, at), (7, 11), "byte {at}, past the events");
        assert_eq!(with_byte(Edition::GCR2, 8, 1, at), (7, 6), "byte {at}");
    }
    // A lower slot of the block comes first, and the block counts also where it holds no event there.
    let lower = changed(&in_edition(Edition::GCR3, 8), |bytes| {
        bytes[512 + 507] = 1;
        slot_mut(bytes, 4)[9] = 1;
    });
    assert_eq!(number(&lower), (7, 4));
    assert_eq!(with_byte(Edition::GCR3, 384, 64, 507), (7, 383));
}

#[test]
fn places_above_255() {
    let full = in_edition(Edition::GCR3, 384);
    assert_eq!(number(&changed(&full, |bytes| slot_mut(bytes, 383)[9] = 1)), (7, 383));
    assert_eq!(number(&changed(&full, |bytes| slot_mut(bytes, 300)[10..12].fill(255))), (8, 300));
    assert_eq!(number(&changed(&full, |bytes| slot_mut(bytes, 383)[10..12].copy_from_slice(&[0, 1]))), (8, 383));
    assert_eq!(number(&changed(&full, |bytes| slot_mut(bytes, 383)[79] |= 0x80)), (9, 383));
    assert_eq!(number(&changed(&full, |bytes| slot_mut(bytes, 320)[79] |= 0x80)), (10, 320));
    let fewer = in_edition(Edition::GCR3, 300);
    assert_eq!(number(&changed(&fewer, |bytes| slot_mut(bytes, 299)[32 + 37] |= 1 << 4)), (9, 299), "event 300");
    assert_eq!(number(&changed(&fewer, |bytes| slot_mut(bytes, 299)[10..12].copy_from_slice(&[44, 1]))), (8, 299));
}

#[test]
fn ring_through_all_events() {
    let events = (0..384).map(|k| Event::write(0, 0, 1).sees(&[(k + 1) % 384]));
    let ring = Record::in_order(1, events.collect());
    assert_eq!(number(&ring.to_bytes()), (10, 0));
    let mut open = ring;
    open.events[383].visible[0] = false;
    assert_eq!(number(&open.to_bytes()), (0, 0));
}

/// The words of a slice after a reading, those that are not as they were lent.
fn words_after(bytes: &[u8], words: usize) -> (u64, Vec<(usize, u64)>) {
    let mut both = [vec![u64::MAX; words], vec![u64::MAX; words]];
    let answers = [Itself.read(bytes, &mut both[0]), Baseline.read(bytes, &mut both[1])];
    assert_eq!((answers[0], &both[0]), (answers[1], &both[1]));
    (answers[0], both[0].iter().copied().enumerate().filter(|word| word.1 != 0).collect())
}

#[test]
fn rows_of_every_edition_have_six_words() {
    for edition in Edition::ALL {
        let mut record = in_edition(edition, 0);
        record.events = vec![Event::write(0, 0, 1); 256];
        record.events[3].visible[255] = true;
        record.events[255].visible[64] = true;
        let positions: Vec<u16> = (0..256).collect();
        let bytes = record.with_positions(&positions).to_bytes();
        let (answer, words) = words_after(&bytes, 2_304);
        assert_eq!((answer, words), (MET, vec![(6 * 3 + 3, 1 << 63), (6 * 255 + 1, 1)]));
    }
    let mut record = Record::in_order(1, vec![Event::write(0, 0, 1); 384]);
    record.events[0].visible[383] = true;
    record.events[5].visible[256] = true;
    record.events[383].visible[320] = true;
    let (answer, words) = words_after(&record.to_bytes(), 2_304);
    assert_eq!((answer, words), (MET, vec![(5, 1 << 63), (6 * 5 + 4, 1), (6 * 383 + 5, 1)]));
}

#[test]
fn work_slice_of_2304_words() {
    let no_work = refused(Refusal { number: 1, place: 0 });
    for (bytes, answer) in [(in_turn(3).to_bytes(), MET), (vec![], refused(Refusal { number: 3, place: 0 }))] {
        for words in [0, 1_024, 2_303] {
            let (answer, left) = words_after(&bytes, words);
            assert_eq!((answer, left.len()), (no_work, words), "unchanged");
        }
        let (told, left) = words_after(&bytes, 2_310);
        let later: Vec<usize> = left.iter().map(|word| word.0).filter(|&word| word >= 2_304).collect();
        assert_eq!((told, later), (answer, (2_304..2_310).collect()));
        assert!(left.iter().all(|&(word, value)| word >= 2_304 || (word < 18 && value != u64::MAX)));
    }
}

/// Each predicate's answer with later numbers.
fn later(answers: &[Answer], by: usize) -> Vec<Answer> {
    let moved = |answer: &Answer| match *answer {
        Broken(a, b) => Broken(a + by, b + by),
        Met => Met,
    };
    answers.iter().map(moved).collect()
}

/// Events that change nothing come before a record's own.
#[test]
fn verdicts_are_the_same_of_later_events() {
    for seed in 0..60 {
        let record = shapes::of_any_edition(&mut Random::new(seed), 10);
        let answers = Judged::new(&record).answers();
        for by in [1, 246, 256, 374] {
            let moved = numbered_later(&record, by).in_edition(Edition::for_events(10 + by));
            let moved = moved.apart(record.difference).opened(record.openings);
            let read = ask(&moved.to_bytes()).expect("passes");
            assert_eq!(Judged::new(&read).answers(), later(&answers, by), "seed {seed} by {by}");
        }
    }
}

/// A record keeps its verdicts in an edition that has as much to say.
#[test]
fn editions_are_judged_alike() {
    for seed in 0..200 {
        let mut random = Random::new(seed);
        let n = random.index(20);
        let record = shapes::of_any_edition(&mut random, n).apart(3);
        let lines = |edition| lines::verdict(&record.clone().in_edition(edition).to_bytes());
        assert_eq!(lines(Edition::GCR2), lines(Edition::GCR3), "seed {seed}");
        let plain = record.clone().apart(0).opened(Openings::none());
        let lines = |edition| lines::verdict(&plain.clone().in_edition(edition).to_bytes());
        assert_eq!([lines(Edition::GCR2), lines(Edition::GCR3)], [lines(Edition::GCR1), lines(Edition::GCR1)]);
    }
}

#[test]
fn slice_of_384_entries() {
    let mut events = vec![Event::write(0, 0, 1).at(0, 9); 3];
    (events[1].visible[0], events[2].visible[1]) = (true, true);
    let bytes = Record::in_order(1, events).to_bytes();
    for subject in [&Itself as &dyn Explainer, &Baseline] {
        let told = |predicate, entries| subject.explain(predicate, &bytes, &mut vec![7; entries]);
        assert_eq!([0, 1, 256, 383].map(|entries| told(10, entries)), [refused(Refusal { number: 41, place: 0 }); 4]);
        assert_eq!([384, 385, 1_000].map(|entries| told(10, entries)), [2; 3]);
        assert_eq!([383, 384].map(|entries| told(14, entries)), [refused(Refusal { number: 2, place: 0 }); 2]);
        let met = [383, 384].map(|entries| told(3, entries));
        assert_eq!(met, [41, 42].map(|number| refused(Refusal { number, place: 0 })));
    }
}

/// Event k sees the next one, and the last is before the first by so: a ring of so many steps, and without the last
/// step a chain.
fn long_way(n: usize, ring: bool) -> Record {
    let mut events: Vec<Event> = (0..n).map(|_| Event::write(0, 0, 1).at(0, 9)).collect();
    for (k, event) in events.iter_mut().enumerate().skip(1) {
        event.visible[k - 1] = true;
    }
    if ring {
        (events[n - 1].site, events[0].site) = (1, 1);
        events[n - 1] = events[n - 1].clone().at(0, 3);
        events[0] = events[0].clone().at(4, 9);
    }
    Record::in_order(2, events)
}

#[test]
fn rings_of_384_steps() {
    for n in [255, 256, 257, 383, 384] {
        let bytes = long_way(n, true).to_bytes();
        let told = explanations(&bytes).expect("passes")[10].clone().expect("11 is broken");
        assert_eq!((told.a, told.events), (0, (1..n).chain([0]).collect()));
        let mut entries = [7; ENTRIES];
        assert_eq!(Baseline.explain(11, &bytes, &mut entries), n as u64);
        assert!(entries[n..].iter().all(|&entry| entry == 7));
    }
    // The first pair of the chain is two steps apart.
    let chain = long_way(384, false);
    assert_eq!(Judged::new(&chain).answer(10), Broken(0, 2));
}

#[test]
fn breaks_of_late_events() {
    let mut record = in_turn(384);
    record.events[383].visible[382] = false;
    record.events[382].value = Some(9);
    let bytes = record.to_bytes();
    assert_eq!(Itself.judge_predicate(9, &bytes), 1_048_576 + 1_024 * 382 + 383);
    assert_eq!(Baseline.judge_predicate(9, &bytes), 1_048_576 + 1_024 * 382 + 383);
    assert_eq!(Judged::new(&record).answer(1), Broken(383, 380));
}

/// The answers and what the rehearsal made of 384 events.
fn full_day(calls: &[Call]) -> (Vec<u8>, Vec<u8>, Outcome) {
    let script = script(calls);
    let (mut record, mut answers) = (vec![7; 33_300], vec![7; script.len()]);
    let outcome = rehearse(8, &[0; OPENINGS_BYTES], &script, &mut record, &mut answers);
    let mut of_baseline = (vec![7; 33_300], vec![7; script.len()]);
    let packed = Baseline.rehearse(8, &[0; OPENINGS_BYTES], &script, &mut of_baseline.0, &mut of_baseline.1);
    assert_eq!((packed, &of_baseline.0, &of_baseline.1), (outcome.packed(), &record, &answers));
    (record, answers, outcome)
}

#[test]
fn store_takes_384_events() {
    let mut calls: Vec<Call> = (0..384).map(|k| if k % 2 == 0 { put(k % 8, 0, 1) } else { get(k % 8, 0) }).collect();
    calls.extend([put(0, 0, 1), get(1, 0), put(0, 32, 1), deliver(384, 0), deliver(382, 0), Close]);
    let (record, answers, outcome) = full_day(&calls);
    let answer = |call: usize| &answers[8 * call..][..8];
    assert_eq!(answer(255)[2..4], [255, 0]);
    assert_eq!(answer(256)[2..4], [0, 1]);
    assert_eq!(answer(383)[..4], [0, 0, 127, 1]);
    assert_eq!([384, 385, 386, 387].map(|call| answer(call)[0]), [34, 34, 33, 33]);
    assert_eq!(answer(388)[0], 36);
    assert_eq!(answer(389), [0, 1, 0, 0, 64, 5, 0, 0], "192 puts to seven sites are 1,344 copies");
    assert_eq!(outcome, Outcome { number: 0, length: 33_280, outstanding: 0 });
    assert_eq!(&record[..7], b"GCR3\x80\x01\x08");
    assert!(record[33_280..].iter().all(|&byte| byte == 7));
    let judged = ask(&record[..33_280]).expect("passes");
    assert_eq!([10, 11, 1].map(|predicate| Judged::new(&judged).answer(predicate)), [Met; 3]);
    assert_eq!(judged.events[383].start, 766);
}

#[test]
fn rehearsals_write_gcr3_whatever_their_length() {
    for n in [0, 1, 6, 7, 8, 12, 256, 257, 383, 384] {
        let (record, _, outcome) = full_day(&vec![put(0, 0, 1); n]);
        assert_eq!(outcome, Outcome { number: 0, length: 512 * (1 + n.div_ceil(6)), outstanding: 7 * n });
        assert_eq!(&record[..4], b"GCR3");
        assert_eq!(ask(&record[..outcome.length]).expect("passes").events.len(), n);
    }
}

#[test]
fn record_buffer_of_33280_bytes() {
    let number = |bytes| {
        let mut record = vec![7; bytes];
        let outcome = rehearse(1, &[0; OPENINGS_BYTES], &[], &mut record, &mut []);
        assert!(outcome.number == 0 || record.iter().all(|&byte| byte == 7));
        let by_baseline = Baseline.rehearse(1, &[0; OPENINGS_BYTES], &[], &mut vec![7; bytes], &mut []);
        assert_eq!(by_baseline, outcome.packed());
        outcome.number
    };
    assert_eq!([0, 512, 19_456, 33_279, 33_280, 33_281, 65_536].map(number), [22, 22, 22, 22, 0, 0, 0]);
    let script_of = |calls: usize| {
        let script = vec![0; 8 * calls];
        rehearse(1, &[0; OPENINGS_BYTES], &script, &mut vec![0; 33_280], &mut vec![0; script.len()]).number
    };
    assert_eq!([4_096, 4_097].map(script_of), [0, 21], "the script's limit stays");
}

/// Needs and known sets go past the 256th event too.
#[test]
fn late_puts_are_delivered() {
    let mut calls = vec![put(0, 0, 1); 300];
    calls.extend([deliver(299, 1), put(1, 1, 2), deliver(300, 0)]);
    calls.extend((0..300).map(|event| deliver(event, 1)));
    calls.extend([deliver(299, 1), get(1, 0), put(1, 2, 3), deliver(302, 2), deliver(300, 2), deliver(302, 2)]);
    let (answers, store) = run(3, &calls);
    assert_eq!(answers[300][0], 36);
    assert_eq!([302, 303, 602, 603].map(|call| answers[call][0]), [0, 0, 0, 35]);
    assert_eq!(answers[604], [0, 1, 45, 1, 1, 0, 0, 0], "event 301 gets what event 299 put");
    assert_eq!([606, 607, 608].map(|call| answers[call][0]), [36, 0, 36]);
    let record = store.record();
    assert!(record.events[301].visible[..301].iter().all(|&seen| seen), "all puts, its own too");
    assert!(record.events[302].visible[301] && !record.events[300].visible[0]);
}

#[test]
fn fixed_records_are_refused_as_they_are_named() {
    let all: HashMap<String, (u32, u32)> =
        sweeps::harvest().into_iter().map(|(name, bytes)| (name, number(&bytes))).collect();
    for letters in ["gcr1", "gcr2", "gcr3"] {
        let of = |n| all[&format!("{letters}-of-{n}")].0;
        assert_eq!([0, 1, 6, 7, 8, 12, 13, 14, 255, 256].map(of), [0; 10]);
        let last = if letters == "gcr3" { 0 } else { 5 };
        assert_eq!([257, 258, 383, 384, 385].map(of), [last, last, last, last, 5]);
        let of_blocks = |blocks, rest: &str| all[&format!("{letters}-of-{blocks}-blocks{rest}")];
        assert_eq!(of_blocks(66, "").0, 3);
        assert_eq!(of_blocks(65, "").0, if letters == "gcr3" { 0 } else { 6 });
        assert_eq!(of_blocks(39, "-and-more-events").0, 5);
        assert_eq!(of_blocks(39, "-unsealed"), (4, 38));
    }
}
