//! Openings: what they hold, what gets find of them, and what a judge expects of reads.

mod editions;
mod sealing;

use editions::in_edition;
use gcr::{answers, judge_all, judge_model, judge_predicate, rehearse, rehearse_raw, script};
use gcr::{Answer, Call, Edition, Model, Openings, Predicate, Refusal, Verdict, OPENINGS_BYTES, RECORD_MOST};
use sealing::sealed;

const OPENING: &[u8] = include_bytes!("../../../records/opening.gcr");
const OPENING_SCRIPT: &[u8] = include_bytes!("../../../records/opening.script");
const STALE_OPENING: &[u8] = include_bytes!("../../../records/stale-opening.gcr");

fn refused(number: u32) -> Refusal {
    Refusal { number, place: 0 }
}

fn get(site: u8, object: u8) -> Call {
    Call::Get { site, object }
}

fn put(site: u8, object: u8, value: u32) -> Call {
    Call::Put { site, object, value }
}

/// What the gets of these calls find, in their order.
fn found(sites: u32, openings: &Openings, calls: &[Call]) -> Vec<Option<u32>> {
    let script = script(calls);
    let mut buffer = vec![0; script.len()];
    rehearse(sites, openings, &script, &mut [0; RECORD_MOST], &mut buffer).unwrap();
    let of_get = |answer| match answer {
        Answer::Get { value, .. } => Some(value),
        _ => None,
    };
    answers(&script, &buffer).filter_map(of_get).collect()
}

/// Every object's opening differs, and the last is 0.
fn of_every_object() -> Openings {
    (0..32).fold(Openings::none(), |openings, object| openings.with(object, 7 * (31 - u32::from(object))).unwrap())
}

/// The record with its openings taken out of block 0, or others in their place, and the block's check made right.
fn reopened(record: &[u8], openings: &Openings) -> Vec<u8> {
    let mut record = record.to_vec();
    record[12..144].copy_from_slice(openings.as_bytes());
    sealed(record)
}

#[test]
fn each_object_has_its_own_opening() {
    let every = of_every_object();
    for object in 0..32 {
        let alone = Openings::none().with(object, u32::MAX).unwrap();
        for other in 0..=255 {
            assert_eq!(alone.get(other), (other == object).then_some(u32::MAX));
        }
        assert_eq!(every.get(object), Some(7 * (31 - u32::from(object))));
    }
    assert!((32..=255).all(|object| every.get(object).is_none() && every.with(object, 1).is_none()));
}

#[test]
fn bits_come_first_and_values_after_them() {
    let openings = Openings::none().with(5, 300).and_then(|openings| openings.with(31, 0)).unwrap();
    let mut bytes = [0; OPENINGS_BYTES];
    (bytes[0], bytes[3]) = (0x20, 0x80);
    (bytes[24], bytes[25]) = (0x2c, 0x01);
    assert_eq!(openings.as_bytes(), &bytes);
    assert_eq!(OPENING_SCRIPT[1..133], bytes);
    assert_eq!(OPENING[12..144], bytes);
}

#[test]
fn none_is_the_default_and_a_later_opening_replaces_an_earlier() {
    assert_eq!(Openings::default(), Openings::none());
    assert_eq!(Openings::none().as_bytes(), &[0; OPENINGS_BYTES]);
    let twice = Openings::none().with(5, u32::MAX).and_then(|openings| openings.with(5, 1));
    assert_eq!(twice, Openings::none().with(5, 1));
    assert_ne!(Openings::none().with(5, 0), Some(Openings::none()));
    assert_eq!(
        format!("{:?}", Openings::none().with(31, 0).and_then(|all| all.with(5, 300)).unwrap()),
        "{5: 300, 31: 0}"
    );
}

/// `from_bytes` and the store agree on what openings are.
#[test]
fn bytes_are_openings_exactly_where_40_does_not_refuse_them() {
    let is_taken = |bytes: &[u8]| match rehearse_raw(1, bytes, &[], &mut [0; RECORD_MOST], &mut []) {
        Ok(_) => true,
        Err(refusal) => {
            assert_eq!(refusal, refused(40));
            false
        }
    };
    let every = of_every_object();
    let mut cases = vec![vec![], vec![0; 131], vec![0; 132], vec![0; 133], every.as_bytes().to_vec()];
    for at in 0..OPENINGS_BYTES {
        for mask in [1, 128, 255] {
            for openings in [Openings::none(), every] {
                let mut bytes = *openings.as_bytes();
                bytes[at] ^= mask;
                cases.push(bytes.to_vec());
            }
        }
    }
    for bytes in cases {
        let read = Openings::from_bytes(&bytes);
        assert_eq!(read.is_some(), is_taken(&bytes), "{bytes:?}");
        assert!(read.is_none_or(|openings| openings.as_bytes()[..] == bytes));
    }
}

#[test]
fn forty_is_asked_after_20_to_23_and_leaves_both_buffers() {
    let mut stray = [0; OPENINGS_BYTES];
    stray[OPENINGS_BYTES - 1] = 1;
    let calls = script(&[get(0, 5)]);
    let (mut record, mut buffer) = ([7; RECORD_MOST], [7; 8]);
    let cases: [(u32, &[u8], usize, usize, u32); 5] = [
        (9, &calls, RECORD_MOST, 8, 20),
        (1, &calls[..7], RECORD_MOST, 8, 21),
        (1, &calls, RECORD_MOST - 1, 8, 22),
        (1, &calls, RECORD_MOST, 7, 23),
        (1, &calls, RECORD_MOST, 8, 40),
    ];
    for openings in [&stray[..], &stray[1..], &[]] {
        for (sites, script, record_length, answers_length, number) in cases {
            let (record, buffer) = (&mut record[..record_length], &mut buffer[..answers_length]);
            assert_eq!(rehearse_raw(sites, openings, script, record, buffer), Err(refused(number)));
        }
    }
    assert_eq!((record, buffer), ([7; RECORD_MOST], [7; 8]));
}

#[test]
fn a_get_of_an_untouched_object_finds_its_opening_at_every_site() {
    let openings = of_every_object();
    for object in 0..32 {
        let gets: Vec<_> = (0..8).map(|site| get(site, object)).collect();
        assert_eq!(found(8, &openings, &gets), [openings.get(object); 8]);
        assert_eq!(found(8, &Openings::none(), &gets), [None; 8]);
    }
}

#[test]
fn every_put_replaces_an_opening() {
    let openings = Openings::none().with(5, u32::MAX).unwrap();
    let deliver = Call::Deliver { site: 1, event: 0 };
    assert_eq!(found(1, &openings, &[get(0, 5), put(0, 5, 0), get(0, 5)]), [Some(u32::MAX), Some(0)]);
    assert_eq!(found(2, &openings, &[put(0, 5, 1), get(1, 5), get(1, 5), deliver, get(1, 5)]), {
        [Some(u32::MAX), Some(u32::MAX), Some(1)]
    });
    assert_eq!(found(2, &openings, &[put(0, 5, 1), Call::Close, get(1, 5)]), [Some(1)]);
    assert_eq!(found(2, &openings, &[put(0, 6, 1), Call::Close, get(1, 5)]), [Some(u32::MAX)]);
}

#[test]
fn the_script_with_openings_gives_its_record_and_answers() {
    let (sites, rest) = (u32::from(OPENING_SCRIPT[0]), &OPENING_SCRIPT[1..]);
    let (openings, script) = (Openings::from_bytes(&rest[..OPENINGS_BYTES]).unwrap(), &rest[OPENINGS_BYTES..]);
    let (mut record, mut buffer) = (vec![0; RECORD_MOST], vec![0; script.len()]);
    let done = rehearse(sites, &openings, script, &mut record, &mut buffer).unwrap();
    assert_eq!(&record[..done.length], OPENING);
    let got = |event, value| Answer::Get { event, value };
    assert_eq!(
        answers(script, &buffer).collect::<Vec<_>>(),
        [
            got(0, Some(300)),
            Answer::Put { event: 1 },
            got(2, Some(300)),
            Answer::Delivered,
            got(3, Some(350)),
            got(4, Some(0)),
            got(5, None),
        ]
    );
    assert_eq!(judge_model(Model::Causal, OPENING), Ok(Verdict::Met));
}

/// Each is the lowest read that is wrong then: event 0 of object 5, event 4 of object 31, event 5 of object 7.
#[test]
fn a_read_that_sees_no_write_should_hold_its_objects_opening() {
    for edition in [Edition::Gcr2, Edition::Gcr3] {
        let record = in_edition(edition, OPENING);
        let judged =
            |openings: Option<Openings>| judge_predicate(Predicate::RVal, &reopened(&record, &openings.unwrap()));
        let broken = |read| Ok(Verdict::Broken { a: read, b: read });
        let five = || Openings::none().with(5, 300);
        assert_eq!(judged(five().and_then(|openings| openings.with(31, 0))), Ok(Verdict::Met));
        assert_eq!(judged(Some(Openings::none())), broken(0));
        assert_eq!(judged(Openings::none().with(5, 350)), broken(0));
        assert_eq!(judged(five()), broken(4));
        assert_eq!(judged(five().and_then(|openings| openings.with(31, 1))), broken(4));
        assert_eq!(judged(five().and_then(|openings| openings.with(31, 0)?.with(7, 0))), broken(5));
    }
}

#[test]
fn a_read_that_sees_a_write_should_not_hold_the_opening() {
    assert_eq!(judge_predicate(Predicate::RVal, STALE_OPENING), Ok(Verdict::Broken { a: 1, b: 0 }));
    let verdicts = judge_all(STALE_OPENING).unwrap();
    assert_eq!(verdicts[1..], [Verdict::Met; 12]);
}

#[test]
fn block_0_has_openings_from_edition_2_on_and_no_value_without_its_bit() {
    for edition in [Edition::Gcr2, Edition::Gcr3] {
        let asked = |at: usize, byte: u8| {
            let mut record = in_edition(edition, OPENING);
            record[at] = byte;
            judge_model(Model::Causal, &sealed(record))
        };
        for (at, byte) in [(3, b'1'), (3, b'4'), (7, 1), (16, 1), (143, 1), (144, 1), (507, 1)] {
            let verdict = asked(at, byte);
            // Object 31 has the last value and an opening, so that its value may be any.
            let due = if at == 143 { Ok(Verdict::Broken { a: 4, b: 4 }) } else { Err(refused(5)) };
            assert_eq!(verdict, due, "byte {at} of {edition} is {byte}");
        }
        assert_eq!(asked(12, 0), Err(refused(5)));
    }
}

/// Two editions whose headers are laid out alike differ in their slots: slot 1 is where the other has bytes of slot 0.
#[test]
fn the_letters_of_another_edition_are_refused_for_its_slots() {
    for (edition, letter) in [(Edition::Gcr2, b'3'), (Edition::Gcr3, b'2')] {
        let mut record = in_edition(edition, OPENING);
        record[3] = letter;
        let refusal = judge_model(Model::Causal, &sealed(record)).unwrap_err();
        assert_eq!(refusal.number, 7, "{edition}: {refusal}");
    }
}
