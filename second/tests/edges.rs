//! Every worked example and every line of 'Edges' in document 01, starred or
//! not, by the second checker alone.

mod calls;

use calls::{deliver, get, put, run, script};
use second::lines;
use second::models::{answer_of, judge_model};
use second::openings::OPENINGS_BYTES;
use second::predicates::Answer::{self, Broken, Met};
use second::predicates::Judged;
use second::questions::{ask, Refusal};
use second::record::*;
use second::store::Call;

fn answers(record: &Record) -> Vec<Answer> {
    let read = ask(&record.to_bytes()).expect("passes every question");
    assert_eq!(&read, record, "bytes and events say the same");
    Judged::new(record).answers()
}

fn answer(record: &Record, predicate: usize) -> Answer {
    answers(record)[predicate - 1]
}

fn listing() -> Vec<Call> {
    vec![put(0, 5, 100), put(1, 5, 200), deliver(0, 1), get(1, 5), get(0, 5), deliver(1, 0), get(0, 5)]
}

const LISTED: &str = "1 met\n2 broken 0 1\n3 broken 2 3\n4 met\n5 met\n6 met\n7 met\n8 met\n9 met\n\
                      10 met\n11 met\n12 met\n13 broken 0 1\n";

#[test]
fn empty_record_of_one_site() {
    let record = Record::in_order(1, vec![]);
    let bytes = record.to_bytes();
    assert_eq!(bytes.len(), 512);
    assert_eq!(stored_check(&bytes), (29_851, 34_610));
    assert_eq!(answers(&record), [Met; 13]);
    assert_eq!(lines::verdict(&bytes).lines().count(), 13);
}

#[test]
fn return_and_start() {
    let pair = |start| {
        let events = vec![Event::write(0, 0, 1).at(0, 5), Event::read(1, 0, None).at(start, 9)];
        Record::in_order(2, events).with_positions(&[1, 0])
    };
    assert_eq!(answer(&pair(5), 3), Met);
    assert_eq!(answer(&pair(6), 3), Broken(0, 1));
}

#[test]
fn pending_write_out_of_order() {
    let seen_by = |first: &[usize], second: &[usize]| {
        let write = Event::write(0, 0, 1).pending_from(0);
        let read = |seen: &[usize], at| {
            let value = seen.contains(&0).then_some(1);
            Event::read(1, 0, value).at(at, at).sees(seen)
        };
        Record::in_order(2, vec![write, read(first, 1), read(second, 2)])
    };
    assert_eq!(answer(&seen_by(&[], &[1]), 2), Met);
    assert_eq!(answer(&seen_by(&[0], &[1]), 2), Broken(0, 2));
    assert_eq!(answer(&seen_by(&[], &[0, 1]), 2), Broken(0, 1));
    assert_eq!(answer(&seen_by(&[0], &[0, 1]), 2), Met);
}

#[test]
fn two_events_seeing_each_other() {
    let events = vec![Event::write(0, 0, 1).sees(&[1]), Event::write(1, 0, 2).sees(&[0])];
    let bytes = Record::in_order(2, events).to_bytes();
    assert_eq!(ask(&bytes), Err(Refusal { number: 10, place: 0 }));
    assert_eq!(lines::verdict(&bytes), "refused 10 0\n");
    assert_eq!(judge_model(4, &bytes), 2_097_152 + 10_240);
}

#[test]
fn read_with_no_visible_write() {
    let holding = |value| Record::in_order(1, vec![Event::write(0, 1, 7), Event::read(0, 0, value).sees(&[0])]);
    assert_eq!(answer(&holding(None), 1), Met);
    assert_eq!(answer(&holding(Some(0)), 1), Broken(1, 1));
}

#[test]
fn pram_does_not_give_monotonic_reads() {
    let events = vec![
        Event::write(0, 0, 7).at(0, 1),
        Event::read(1, 0, Some(7)).at(2, 3).sees(&[0]),
        Event::read(1, 0, None).at(4, 5).sees(&[1]),
    ];
    let record = Record::in_order(2, events);
    assert_eq!(answer(&record, 9), Met);
    assert_eq!(answer(&record, 5), Broken(0, 2));
}

#[test]
fn session_order_against_visibility() {
    let events = vec![Event::write(0, 0, 1).at(0, 1).sees(&[1]), Event::write(0, 0, 2).at(2, 3)];
    assert_eq!(answer(&Record::in_order(1, events), 10), Broken(0, 0));
}

#[test]
fn listing_of_two_sites() {
    let (answers, store) = run(2, &listing());
    let gets: Vec<_> = [3, 4, 6].iter().map(|&call: &usize| answers[call]).collect();
    assert_eq!(gets, [[0, 1, 2, 0, 200, 0, 0, 0], [0, 1, 3, 0, 100, 0, 0, 0], [0, 1, 4, 0, 200, 0, 0, 0]]);
    assert_eq!(lines::verdict(&store.record().to_bytes()), LISTED);
    assert_eq!(store.outstanding(), 0);
}

#[test]
fn listing_through_the_program() {
    let input = [vec![2], vec![0; OPENINGS_BYTES], script(&listing())].concat();
    let record = lines::rehearsal(&input);
    assert_eq!(record.len(), 1_024);
    assert_eq!(lines::verdict(&record), LISTED);
}

#[test]
fn listing_by_models() {
    let (_, store) = run(2, &listing());
    let record = store.record();
    let answers = answers(&record);
    let expected = [Broken(0, 1), Broken(0, 1), Broken(0, 1), Met, Broken(2, 3), Broken(0, 1), Broken(0, 1)];
    for (model, due) in (1..=13).zip(expected.into_iter().chain([Met; 6])) {
        assert_eq!(answer_of(model, &answers), due, "model {model}");
    }
    assert_eq!(judge_model(5, &record.to_bytes()), 1_048_576 + 2 * 1_024 + 3);
    assert_eq!(judge_model(0, &[]), 2_097_152 + 2_048);
    assert_eq!(judge_model(14, &[]), 2_097_152 + 2_048);
    assert_eq!(judge_model(1, &[]), 2_097_152 + 3_072);
}

#[test]
fn delivery_before_its_needs() {
    let calls = [put(0, 0, 1), deliver(0, 1), put(1, 0, 2), deliver(1, 2)];
    let (answers, store) = run(3, &calls);
    assert_eq!(answers[3], [36, 0, 0, 0, 0, 0, 0, 0]);
    assert_eq!(answers[2], [0, 0, 1, 0, 0, 0, 0, 0]);
    assert_eq!(store.outstanding(), 3);
}

#[test]
fn delivery_made_twice() {
    let (answers, store) = run(2, &[put(0, 0, 1), deliver(0, 1), deliver(0, 1), deliver(0, 0)]);
    assert_eq!(answers[1], [0; 8]);
    assert_eq!(answers[2][0], 35);
    assert_eq!(answers[3][0], 35);
    assert_eq!(store.outstanding(), 0);
}

#[test]
fn most_events_in_a_record() {
    let events = (0..256).map(|_| Event::write(0, 0, 0)).collect();
    let mut bytes = Record::in_order(1, events).to_bytes();
    assert_eq!(bytes.len(), 19_456);
    assert_eq!(lines::inspect(&bytes), "passed\n");
    bytes[4..6].copy_from_slice(&257u16.to_le_bytes());
    seal(&mut bytes);
    assert_eq!(lines::inspect(&bytes), "refused 5 0\n");
}

#[test]
fn most_events_in_the_store() {
    for last in [put(0, 0, 1), get(0, 0)] {
        let mut calls = vec![put(0, 0, 1); 384];
        calls.extend([last, deliver(383, 1), deliver(0, 1)]);
        let (answers, store) = run(2, &calls);
        assert_eq!(answers[255], [0, 0, 255, 0, 0, 0, 0, 0]);
        assert_eq!(answers[383], [0, 0, 127, 1, 0, 0, 0, 0]);
        assert_eq!(answers[384], [34, 0, 0, 0, 0, 0, 0, 0]);
        assert_eq!(answers[385][0], 36);
        assert_eq!(answers[386], [0; 8], "a full store still delivers");
        assert_eq!((store.events(), store.outstanding()), (384, 383));
    }
}

// What the paper calls tempting, each with a record or script that tells.

#[test]
fn happens_before_takes_far_steps() {
    let events = vec![
        Event::write(0, 0, 1).at(0, 1),
        Event::write(1, 0, 2).at(0, 1).sees(&[0]),
        Event::write(1, 0, 3).at(2, 3).sees(&[1]),
        Event::write(2, 0, 4).at(0, 9).sees(&[1, 2]),
    ];
    let record = Record::in_order(3, events);
    assert_eq!(answer(&record, 9), Met);
    assert_eq!(answer(&record, 10), Broken(0, 2));
    assert_eq!(answer(&record, 11), Met);
}

#[test]
fn cells_merge_by_stamp() {
    // Site 1's put has stamp 2; site 0's older stamp arrives after it.
    let calls = [put(0, 0, 10), put(1, 3, 0), put(1, 0, 20), deliver(0, 1), get(1, 0)];
    let (answers, _) = run(2, &calls);
    assert_eq!(answers[4], [0, 1, 3, 0, 20, 0, 0, 0]);
    // Equal stamps: the higher site wins, whichever comes first.
    let (answers, _) = run(2, &[put(0, 0, 10), put(1, 0, 20), deliver(0, 1), deliver(1, 0), get(0, 0), get(1, 0)]);
    assert_eq!((answers[4][4], answers[5][4]), (20, 20));
}

#[test]
fn reads_are_visible_too() {
    let (_, store) = run(2, &[get(0, 0), put(0, 0, 1), deliver(1, 1), get(1, 0)]);
    let events = store.record().events;
    assert!(events[1].visible[0] && events[2].visible[0] && events[2].visible[1]);
    assert_eq!(events[2].value, Some(1));
}
