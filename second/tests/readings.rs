//! The readings of READINGS.md, each by a record or script that tells.

use second::lines;
use second::models::{answers, packed_all, refused};
use second::openings::OPENINGS_BYTES;
use second::predicates::Answer::{self, Broken, Met};
use second::predicates::Judged;
use second::questions::{ask, Refusal};
use second::reader::read;
use second::record::*;
use second::store::{rehearse, Store};

fn answer(record: &Record, predicate: u32) -> Answer {
    ask(&record.to_bytes()).expect("passes every question");
    Judged::new(record).answer(predicate)
}

/// Changes a record's bytes, seals them and asks again.
fn refusal(record: &Record, change: impl FnOnce(&mut Vec<u8>)) -> (u32, u32) {
    let mut bytes = record.to_bytes();
    change(&mut bytes);
    seal(&mut bytes);
    let Refusal { number, place } = ask(&bytes).expect_err("refused");
    (number, place)
}

fn plain(n: usize) -> Record {
    let at = |k: usize| (2 * k as u64, 2 * k as u64 + 1);
    let events = (0..n).map(|k| Event::write(0, 0, 1).at(at(k).0, at(k).1));
    Record::in_order(1, events.collect())
}

#[test]
fn reads_hold_visible_pending_writes_wherever_they_stand() {
    let events = vec![Event::write(0, 0, 7).pending_from(0), Event::read(1, 0, Some(7)).at(0, 0).sees(&[0])];
    let record = Record::in_order(2, events).with_positions(&[1, 0]);
    assert_eq!(answer(&record, 1), Met);
}

#[test]
fn none_and_zero_differ() {
    let holding = |value| Record::in_order(1, vec![Event::write(0, 0, 0), Event::read(0, 0, value).sees(&[0])]);
    assert_eq!(answer(&holding(Some(0)), 1), Met);
    assert_eq!(answer(&holding(None), 1), Broken(1, 0));
}

#[test]
fn pending_event_seen_on_another_object_only() {
    let events = vec![
        Event::write(0, 0, 1).pending_from(0),
        Event::write(1, 1, 2).at(0, 0).sees(&[0]),
        Event::write(1, 0, 3).at(1, 1).sees(&[1]),
    ];
    let record = Record::in_order(2, events);
    assert_eq!(answer(&record, 13), Met);
    assert_eq!(answer(&record, 2), Broken(0, 2));
}

#[test]
fn pending_reads_count_as_the_later_event() {
    let events = vec![
        Event::write(0, 0, 1).at(0, 1),
        Event::read(0, 0, None).pending_from(2),
        Event::write(1, 0, 1).at(0, 1),
        Event::read(1, 0, Some(1)).at(0, 1).sees(&[2]),
        Event::read(1, 0, None).pending_from(2),
    ];
    let record = Record::in_order(2, events);
    assert_eq!(answer(&record, 6), Broken(0, 1));
    assert_eq!(answer(&record, 5), Broken(2, 4));
}

#[test]
fn breaks_at_one_event_twice() {
    let events = vec![Event::read(0, 0, None).at(4, 5), Event::read(0, 0, None).at(0, 1).sees(&[0])];
    let record = Record::in_order(1, events);
    for predicate in [5, 10, 11] {
        assert_eq!(answer(&record, predicate), Broken(0, 0), "predicate {predicate}");
    }
    let events = vec![Event::write(0, 0, 1).at(4, 5), Event::read(0, 0, Some(1)).at(0, 1).sees(&[0])];
    assert_eq!(answer(&Record::in_order(1, events), 8), Broken(0, 0));
}

#[test]
fn single_order_differs_on_both_sides() {
    let events = vec![Event::write(0, 0, 1), Event::write(0, 0, 1).sees(&[0])];
    let record = Record::in_order(1, events).with_positions(&[1, 0]);
    assert_eq!(answer(&record, 2), Broken(0, 1));
    assert_eq!(answer(&record, 13), Broken(0, 1));
}

#[test]
fn work_slice_is_settled() {
    let mut record = plain(3);
    record.events[2].visible[1] = true;
    let mut work = vec![u64::MAX; 2_310];
    assert_eq!(read(&record.to_bytes(), &mut work), 0);
    let set: Vec<usize> = (0..2_310).filter(|&word| work[word] != 0).collect();
    assert_eq!(set, [12, 2_304, 2_305, 2_306, 2_307, 2_308, 2_309]);
    assert_eq!(work[12], 2);
    let mut short = vec![5; 2_303];
    assert_eq!(read(&[], &mut short), refused(Refusal { number: 1, place: 0 }));
    assert!(short.iter().all(|&word| word == 5));
    assert_eq!(read(&[], &mut work), refused(Refusal { number: 3, place: 0 }));
    assert!(work[..2_304].iter().all(|&word| word == 0) && work[2_304..].iter().all(|&word| word == u64::MAX));
}

#[test]
fn checks_are_compared_exactly() {
    let mut bytes = Record::in_order(1, vec![]).to_bytes();
    // Words chosen so that A comes to 5; 65,526 is congruent to it.
    bytes[8..10].copy_from_slice(&(65_521u32 + 5 - 29_851).to_le_bytes()[..2]);
    seal(&mut bytes);
    assert_eq!(stored_check(&bytes).0, 5);
    assert_eq!(ask(&bytes), Err(Refusal { number: 5, place: 0 }));
    bytes[508..510].copy_from_slice(&65_526u16.to_le_bytes());
    assert_eq!(ask(&bytes), Err(Refusal { number: 4, place: 0 }));
}

#[test]
fn block_tail_counts_to_the_last_slot() {
    let tail = |n: usize, block: usize, lower: Option<usize>| {
        refusal(&plain(n), |bytes| {
            bytes[512 * block + 448] = 1;
            if let Some(slot) = lower {
                slot_mut(bytes, slot)[9] = 1;
            }
        })
    };
    assert_eq!(tail(1, 1, None), (7, 6));
    assert_eq!(tail(8, 2, None), (7, 13));
    assert_eq!(tail(8, 1, Some(7)), (7, 6));
    assert_eq!(tail(8, 1, Some(5)), (7, 5));
}

#[test]
fn slots_past_the_events_are_zero_everywhere() {
    for byte in [0, 10, 31, 32, 63] {
        let place = refusal(&plain(2), |bytes| slot_mut(bytes, 2)[byte] = 1);
        assert_eq!(place, (7, 2), "byte {byte}");
    }
}

#[test]
fn positions_and_sets_come_before_rings() {
    let equal = refusal(&plain(4), |bytes| slot_mut(bytes, 1)[10] = 3);
    assert_eq!(equal, (8, 3));
    let large = refusal(&plain(4), |bytes| slot_mut(bytes, 2)[10] = 4);
    assert_eq!(large, (8, 2));
    assert_eq!(seeing(&[(0, 0b0010), (1, 0b0001), (3, 0b1000)]), (9, 3));
}

/// The refusal of four events with these visible sets.
fn seeing(sets: &[(usize, u8)]) -> (u32, u32) {
    refusal(&plain(4), |bytes| sets.iter().for_each(|&(event, set)| slot_mut(bytes, event)[32] = set))
}

#[test]
fn ring_names_an_event_on_it() {
    // 0 leads into the ring of 2 and 3, 1 out of it.
    assert_eq!(seeing(&[(2, 0b1001), (3, 0b0100), (1, 0b0100)]), (10, 2));
}

#[test]
fn calls_not_well_formed() {
    let mut store = Store::new(2);
    assert_eq!(store.call(&[1, 0, 0, 0, 1, 0, 0, 0]), [0; 8]);
    let wrong: [[u8; 8]; 9] = [
        [0, 0, 0, 0, 0, 0, 0, 0],
        [5, 0, 0, 0, 0, 0, 0, 0],
        [1, 0, 0, 1, 0, 0, 0, 0],
        [1, 9, 99, 1, 0, 0, 0, 0],
        [2, 0, 0, 0, 0, 0, 0, 1],
        [2, 0, 0, 1, 0, 0, 0, 0],
        [3, 1, 1, 0, 0, 0, 0, 0],
        [3, 1, 0, 1, 0, 0, 0, 0],
        [3, 1, 0, 0, 0, 0, 1, 0],
    ];
    for call in wrong {
        assert_eq!(store.call(&call), [31, 0, 0, 0, 0, 0, 0, 0], "{call:?}");
    }
    assert_eq!(store.call(&[1, 2, 99, 0, 0, 0, 0, 0])[0], 32);
    assert_eq!(store.call(&[2, 1, 32, 0, 0, 0, 0, 0])[0], 33);
    assert_eq!(store.call(&[3, 1, 0, 0, 1, 0, 0, 0])[0], 33);
    assert_eq!(store.events(), 1);
}

#[test]
fn object_is_asked_before_room() {
    let mut store = Store::new(1);
    for _ in 0..384 {
        store.call(&[2, 0, 0, 0, 0, 0, 0, 0]);
    }
    assert_eq!(store.call(&[1, 0, 32, 0, 0, 0, 0, 0])[0], 33);
    assert_eq!(store.call(&[1, 0, 31, 0, 0, 0, 0, 0])[0], 34);
}

#[test]
fn rehearsal_refusals_in_order() {
    let number = |sites, script: usize, record: usize, answers: usize| {
        let (mut record, mut answers) = (vec![7; record], vec![7; answers]);
        let outcome = rehearse(sites, &[0; OPENINGS_BYTES], &vec![0; script], &mut record, &mut answers);
        assert!(outcome.number == 0 || record.iter().chain(&answers).all(|&byte| byte == 7));
        outcome.packed() % 256
    };
    assert_eq!(number(0, 1, 0, 0), 20);
    assert_eq!(number(9, 1, 0, 0), 20);
    assert_eq!(number(1, 1, 0, 0), 21);
    assert_eq!(number(8, 32_776, 0, 0), 21);
    assert_eq!(number(8, 32_768, 33_279, 0), 22);
    assert_eq!(number(8, 32_768, 33_280, 32_767), 23);
    assert_eq!(number(8, 32_768, 33_280, 32_768), 0);
}

#[test]
fn all_thirteen_hold_a_refusal_too() {
    let words_after = |bytes: &[u8], words: usize| {
        let mut out = vec![7; words];
        (packed_all(&answers(bytes), &mut out), out)
    };
    let refusal = refused(Refusal { number: 3, place: 0 });
    assert_eq!(words_after(&[], 0), (refusal, vec![]));
    assert_eq!(words_after(&[], 5), (refusal, vec![refusal; 5]));
    assert_eq!(words_after(&[], 15), (refusal, [vec![refusal; 13], vec![7; 2]].concat()));
    let met = Record::in_order(1, vec![]).to_bytes();
    assert_eq!(words_after(&met, 15), (0, [vec![0; 13], vec![7; 2]].concat()));
}

#[test]
fn programs_on_short_and_long_input() {
    assert_eq!(lines::verdict(&[]), "refused 3 0\n");
    assert_eq!(lines::rehearsal(&[]), b"refused 20\n");
    assert_eq!(lines::rehearsal(&[9]), b"refused 20\n");
    assert_eq!(lines::rehearsal(&[8]), Record::in_order(8, vec![]).in_edition(Edition::GCR3).to_bytes());
    assert_eq!(lines::rehearsal(&[1; 1 + OPENINGS_BYTES + 32_776]), b"refused 21\n");
    let mut long = plain(256).to_bytes();
    long.resize(33_280 + 512, 0);
    assert_eq!(lines::verdict(&long), "refused 3 0\n");
}
