//! Rehearsals through the library.

use gcr::{answers, judge_model, rehearse, script, Answer, Call, Model, Openings, Refusal, Verdict};
use gcr::{EVENTS_MOST, OPENINGS_BYTES, RECORD_MOST, SCRIPT_MOST};

const LISTING: &[u8] = include_bytes!("../../../records/listing.gcr");
const LISTING_SCRIPT: &[u8] = include_bytes!("../../../records/listing.script");
const NONE: &Openings = &Openings::none();

/// The number of sites and the calls of the listing, which has no openings.
fn listing_script() -> (u32, &'static [u8]) {
    let (openings, script) = LISTING_SCRIPT[1..].split_at(OPENINGS_BYTES);
    assert_eq!(openings, NONE.as_bytes());
    (u32::from(LISTING_SCRIPT[0]), script)
}

/// The copies outstanding after these calls at so many sites.
fn outstanding(sites: u32, calls: &[Call]) -> u64 {
    let script = script(calls);
    rehearse(sites, NONE, &script, &mut [0; RECORD_MOST], &mut vec![0; script.len()]).unwrap().outstanding
}

/// The answers of a script at so many sites, and its record.
fn rehearsed(sites: u32, script: &[u8]) -> (Vec<Answer>, Vec<u8>) {
    let mut record = vec![0; RECORD_MOST];
    let mut buffer = vec![0; script.len()];
    let done = rehearse(sites, NONE, script, &mut record, &mut buffer).unwrap();
    record.truncate(done.length);
    (answers(script, &buffer).collect(), record)
}

fn answered(sites: u32, calls: &[Call]) -> Vec<Answer> {
    rehearsed(sites, &script(calls)).0
}

fn put(site: u8, value: u32) -> Call {
    Call::Put { site, object: 5, value }
}

fn get(site: u8) -> Call {
    Call::Get { site, object: 5 }
}

fn refused(number: u32) -> Answer {
    Answer::Refused(Refusal { number, place: 0 })
}

#[test]
fn the_listings_script_gives_its_record_and_answers() {
    let (sites, script) = listing_script();
    let mut record = vec![7; RECORD_MOST + 1];
    let mut buffer = vec![7; script.len() + 8];
    let done = rehearse(sites, NONE, script, &mut record, &mut buffer).unwrap();
    assert_eq!(&record[..done.length], LISTING);
    assert!(record[done.length..].iter().all(|&byte| byte == 7));
    assert_eq!(buffer[script.len()..], [7; 8]);
    let found = |event, value| Answer::Get { event, value: Some(value) };
    assert_eq!(
        answers(script, &buffer).collect::<Vec<_>>(),
        [
            Answer::Put { event: 0 },
            Answer::Put { event: 1 },
            Answer::Delivered,
            found(2, 200),
            found(3, 100),
            Answer::Delivered,
            found(4, 200),
        ]
    );
}

#[test]
fn after_three_calls_of_the_listing_one_copy_is_outstanding() {
    let (sites, script) = listing_script();
    let left = |bytes| rehearse(sites, NONE, &script[..bytes], &mut [0; RECORD_MOST], &mut [0; 56]).unwrap();
    assert_eq!((left(24).length, left(24).outstanding), (1_024, 1));
    assert_eq!((left(56).length, left(56).outstanding), (1_024, 0));
}

#[test]
fn refused_rehearsals_leave_both_buffers() {
    let mut record = [7; RECORD_MOST];
    let mut buffer = [7; 8];
    let get = script(&[Call::Get { site: 0, object: 0 }]);
    let cases: [(u32, &[u8], usize, usize, u32); 6] = [
        (0, &get, RECORD_MOST, 8, 20),
        (9, &get, RECORD_MOST, 8, 20),
        (1, &get[..7], RECORD_MOST, 8, 21),
        (1, &[2; SCRIPT_MOST + 8], RECORD_MOST, 8, 21),
        (1, &get, RECORD_MOST - 1, 8, 22),
        (1, &get, RECORD_MOST, 7, 23),
    ];
    for (sites, script, record_length, answers_length, number) in cases {
        let answer = rehearse(sites, NONE, script, &mut record[..record_length], &mut buffer[..answers_length]);
        assert_eq!(answer, Err(Refusal { number, place: 0 }));
    }
    assert_eq!(record, [7; RECORD_MOST]);
    assert_eq!(buffer, [7; 8]);
}

#[test]
fn refused_calls_answer_with_their_number() {
    let mut script = script(&[
        put(0, 1),
        Call::Deliver { site: 1, event: 0 },
        put(1, 2),
        Call::Deliver { site: 2, event: 2 },
        Call::Deliver { site: 2, event: 1 },
        Call::Deliver { site: 1, event: 0 },
        get(3),
    ]);
    script.extend([9; 8]);
    let (answers, _) = rehearsed(3, &script);
    let numbers: Vec<_> = answers.iter().map(|answer| answer.refusal().map_or(0, |refusal| refusal.number)).collect();
    assert_eq!(numbers, [0, 0, 0, 33, 36, 35, 32, 31]);
}

#[test]
fn the_385th_event_is_refused() {
    let script = script(&[get(0); EVENTS_MOST + 1]);
    let mut buffer = vec![0; script.len()];
    let done = rehearse(1, NONE, &script, &mut [0; RECORD_MOST], &mut buffer).unwrap();
    assert_eq!((done.length, done.outstanding), (RECORD_MOST, 0));
    let last: Vec<_> = answers(&script, &buffer).skip(383).collect();
    assert_eq!(last, [Answer::Get { event: 383, value: None }, refused(34)]);
}

#[test]
fn after_a_close_all_sites_show_the_same() {
    let answers = answered(2, &[put(0, 100), put(1, 200), Call::Close, get(0), get(1), Call::Close]);
    assert_eq!(answers[2], Answer::Closed { copies: 2 });
    assert_eq!(answers[3], Answer::Get { event: 2, value: Some(200) });
    assert_eq!(answers[4], Answer::Get { event: 3, value: Some(200) });
    assert_eq!(answers[5], Answer::Closed { copies: 0 });
}

#[test]
fn a_close_delivers_what_is_lacking_and_no_more() {
    let delivered = [put(0, 1), Call::Deliver { site: 1, event: 0 }, Call::Deliver { site: 2, event: 0 }, Call::Close];
    assert_eq!(answered(3, &delivered)[3], Answer::Closed { copies: 0 });
    let half_delivered = [put(0, 1), Call::Deliver { site: 1, event: 0 }, Call::Close];
    assert_eq!(answered(3, &half_delivered)[2], Answer::Closed { copies: 1 });
    assert_eq!(answered(8, &[Call::Close]), [Answer::Closed { copies: 0 }]);
}

#[test]
fn each_put_is_outstanding_at_the_sites_that_lack_it() {
    let deliver = |site| Call::Deliver { site, event: 0 };
    assert_eq!(outstanding(3, &[get(0), get(1)]), 0);
    assert_eq!(outstanding(3, &[get(0), put(0, 1), get(1)]), 2);
    assert_eq!(outstanding(3, &[put(0, 1), deliver(1)]), 1);
    assert_eq!(outstanding(3, &[put(0, 1), deliver(1), deliver(1), put(3, 1)]), 1);
    assert_eq!(outstanding(3, &[put(0, 1), deliver(1), deliver(2)]), 0);
    assert_eq!(outstanding(3, &[put(0, 1), Call::Close]), 0);
    assert_eq!(outstanding(3, &[put(0, 1), Call::Close, put(2, 2)]), 2);
    assert_eq!(outstanding(1, &[put(0, 1), put(0, 2)]), 0);
}

/// As many as there can be, at eight sites in turn.
fn full_of_puts() -> Vec<Call> {
    (0..EVENTS_MOST as u32).map(|k| put((k % 8) as u8, k)).collect()
}

#[test]
fn a_full_store_of_puts_is_outstanding_at_seven_sites() {
    assert_eq!(outstanding(8, &full_of_puts()), 384 * 7);
}

/// Events from 256 on are delivered by numbers of two bytes.
#[test]
fn the_last_event_is_delivered() {
    let puts = vec![put(0, 1); EVENTS_MOST];
    let deliver = |event| Call::Deliver { site: 1, event };
    let deliveries = (0..EVENTS_MOST as u16).map(deliver);
    let calls: Vec<_> = puts.into_iter().chain(deliveries).chain([deliver(384), Call::Close]).collect();
    let last = &answered(2, &calls)[2 * EVENTS_MOST - 1..];
    assert_eq!(last, [Answer::Delivered, refused(33), Answer::Closed { copies: 0 }]);
    assert_eq!(outstanding(2, &calls[..2 * EVENTS_MOST - 1]), 1);
}

#[test]
fn one_site_lacks_nothing() {
    let answers = answered(1, &[put(0, 7), Call::Close, get(0)]);
    assert_eq!(answers[1..], [Answer::Closed { copies: 0 }, Answer::Get { event: 1, value: Some(7) }]);
}

#[test]
fn a_full_store_is_closed() {
    let mut calls = full_of_puts();
    calls.extend([put(0, 1), Call::Close, Call::Close]);
    let last = &answered(8, &calls)[EVENTS_MOST..];
    assert_eq!(last, [refused(34), Answer::Closed { copies: 384 * 7 }, Answer::Closed { copies: 0 }]);
}

#[test]
fn a_close_is_kind_4_and_zeros() {
    for at in 1..8 {
        for byte in [1, 128, 255] {
            let mut malformed = Call::Close.bytes();
            malformed[at] = byte;
            let script = [put(0, 1).bytes(), malformed, Call::Close.bytes()].concat();
            let due = [Answer::Put { event: 0 }, refused(31), Answer::Closed { copies: 1 }];
            assert_eq!(rehearsed(2, &script).0, due, "byte {at} is {byte}");
        }
    }
}

#[test]
fn a_close_leaves_the_record_of_its_deliveries() {
    let closed = script(&[put(0, 100), put(1, 200), Call::Close, get(0)]);
    let delivered = script(&[
        put(0, 100),
        put(1, 200),
        Call::Deliver { site: 1, event: 0 },
        Call::Deliver { site: 0, event: 1 },
        get(0),
    ]);
    let (_, record) = rehearsed(2, &closed);
    assert_eq!(record, rehearsed(2, &delivered).1);
    assert_eq!(judge_model(Model::Causal, &record), Ok(Verdict::Met));
}
