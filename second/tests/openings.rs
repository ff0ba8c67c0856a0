//! Change 3, opening positions: the bytes of an edition, what a read should hold, and a store that starts from them.

mod calls;

use calls::{deliver, get, put, run_opened, script};
use second::generate::random::Random;
use second::generate::shapes;
use second::limits::MOST_BYTES;
use second::lines;
use second::models::judge_model;
use second::openings::{value_at, Openings, OBJECTS, OPENINGS_BYTES};
use second::predicates::Answer::{self, Broken, Met};
use second::predicates::Judged;
use second::questions::ask;
use second::record::*;
use second::store::Call::{self, Close};
use second::store::{rehearse, Outcome, Store};

/// Object 0 opens with 40, 6 with 0, and 31 with the largest figure.
fn openings() -> Openings {
    Openings::none().with(0, 40).with(6, 0).with(31, u32::MAX)
}

fn passes(bytes: &[u8]) -> bool {
    match ask(bytes) {
        Ok(_) => true,
        Err(refusal) => {
            assert_eq!((refusal.number, refusal.place), (5, 0));
            false
        }
    }
}

/// Whether block 0 is as laid out with this byte in it, sealed again.
fn passes_with(record: &Record, at: usize, byte: u8) -> bool {
    let mut bytes = record.to_bytes();
    bytes[at] = byte;
    seal(&mut bytes);
    passes(&bytes)
}

#[test]
fn bytes_of_an_edition() {
    let bytes = Record::in_order(3, vec![]).opened(openings()).to_bytes();
    assert_eq!(&bytes[..12], b"GCR2\0\0\x03\0\0\0\0\0");
    assert_eq!(bytes[12..16], [0x41, 0, 0, 0x80], "bits 0, 6 and 31");
    assert_eq!(bytes[16..20], [40, 0, 0, 0]);
    assert_eq!(bytes[140..144], [255; 4]);
    assert!(bytes[20..140].iter().chain(&bytes[144..CHECKED_BYTES]).all(|&byte| byte == 0));
    let record = ask(&bytes).expect("passes");
    assert_eq!((record.edition, record.openings), (Edition::GCR2, openings()));
}

#[test]
fn openings_and_their_bytes() {
    let bytes = openings().to_bytes();
    assert_eq!(Openings::from_bytes(&bytes), Some(openings()));
    assert_eq!(openings().count(), 3);
    assert_eq!([0, 1, 6, 31, 32, 38, 255].map(|object| openings().of(object)), {
        [Some(40), None, Some(0), Some(u32::MAX), None, None, None]
    });
    assert_eq!(openings().without(6).of(6), None);
    for length in [0, 1, 4, 131, 133, 264] {
        assert_eq!(Openings::from_bytes(&vec![0; length]), None, "{length} bytes");
    }
}

#[test]
fn value_under_each_clear_bit() {
    let all = (0..OBJECTS).fold(Openings::none(), |openings, object| openings.with(object, 7));
    for object in 0..OBJECTS {
        let record = Record::in_order(1, vec![]).opened(all.without(object));
        for byte in 0..4 {
            assert!(!passes_with(&record, OPENINGS_AT.start + value_at(object) + byte, 1), "object {object}");
        }
        // With its bit set the same value is an opening, and 0 is one too.
        let mut bytes = record.to_bytes();
        bytes[OPENINGS_AT.start + object / 8] |= 1 << (object % 8);
        seal(&mut bytes);
        assert_eq!(ask(&bytes).expect("passes").openings, all.with(object, 0));
        bytes[OPENINGS_AT.start + value_at(object)] = 7;
        seal(&mut bytes);
        assert_eq!(ask(&bytes).expect("passes").openings, all);
    }
}

#[test]
fn every_other_byte_of_block_0_is_zero() {
    let (old, new) = (Record::in_order(1, vec![]), Record::in_order(1, vec![]).opened(openings()));
    for at in 7..CHECKED_BYTES {
        assert!(!passes_with(&old, at, 1), "GCR1, byte {at}");
        let held = DIFFERENCE_AT.contains(&at) || OPENINGS_AT.contains(&at);
        assert!(held || !passes_with(&new, at, 1), "GCR2, byte {at}");
    }
}

#[test]
fn letters_tell_the_edition() {
    let lettered = |letters: &[u8; 4], record: &Record| {
        let mut bytes = record.to_bytes();
        bytes[..4].copy_from_slice(letters);
        seal(&mut bytes);
        passes(&bytes)
    };
    let (plain, opened) = (Record::in_order(1, vec![]), Record::in_order(1, vec![]).opened(openings()));
    assert!(lettered(b"GCR1", &plain) && lettered(b"GCR2", &plain) && lettered(b"GCR3", &plain));
    assert!(lettered(b"GCR2", &opened) && lettered(b"GCR3", &opened) && !lettered(b"GCR1", &opened));
    for letters in [b"GCR0", b"GCR4", b"GCR\0", b"GCR\xb2", b"gcr2", b"ACR2", b"GAR2", b"GCA2", b"2RCG"] {
        assert!(!lettered(letters, &plain) && !lettered(letters, &opened), "{}", letters.escape_ascii());
    }
}

#[test]
fn count_and_sites_as_before() {
    let record = Record::in_order(1, vec![]).opened(openings());
    let with_count = |count: u16| {
        let mut bytes = record.to_bytes();
        bytes[4..6].copy_from_slice(&count.to_le_bytes());
        bytes.resize(BLOCK_BYTES * Edition::GCR2.blocks_for(count.min(256) as usize), 0);
        seal(&mut bytes);
        ask(&bytes).expect_err("no events are there").number
    };
    assert_eq!([256, 257].map(with_count), [8, 5]);
    assert_eq!([0, 1, 8, 9].map(|sites| passes_with(&record, 6, sites)), [false, true, true, false]);
}

/// The answer of predicate 1 about one read of an object by itself.
fn alone(record: impl Fn(Record) -> Record, object: u8, value: Option<u32>) -> Answer {
    let record = record(Record::in_order(1, vec![Event::read(0, object, value)]));
    Judged::new(&ask(&record.to_bytes()).expect("passes")).answer(1)
}

#[test]
fn read_that_sees_no_write() {
    let opened = |object, value| alone(|record| record.opened(openings()), object, value);
    let broken = Broken(0, 0);
    assert_eq!([Some(40), None, Some(0), Some(41)].map(|value| opened(0, value)), [Met, broken, broken, broken]);
    assert_eq!([Some(0), None, Some(1)].map(|value| opened(6, value)), [Met, broken, broken]);
    assert_eq!([Some(u32::MAX), None, Some(0)].map(|value| opened(31, value)), [Met, broken, broken]);
    // 32 and 38 are 0 and 6 modulo 32, 63 and 255 are 31.
    for object in [1, 5, 30, 32, 38, 63, 255] {
        let held = [None, Some(0), Some(40), Some(u32::MAX)].map(|value| opened(object, value));
        assert_eq!(held, [Met, broken, broken, broken], "object {object}");
    }
}

#[test]
fn an_edition_without_openings_is_judged_as_before() {
    for edition in Edition::ALL {
        let of = |value| alone(|record| record.in_edition(edition), 0, value);
        assert_eq!([None, Some(0), Some(40)].map(of), [Met, Broken(0, 0), Broken(0, 0)]);
    }
}

#[test]
fn any_visible_write_of_the_object_hides_the_opening() {
    let seeing = |writes: Vec<Event>, value| {
        let seen: Vec<usize> = (0..writes.len()).collect();
        let read = Event::read(1, 0, value).at(9, 9).sees(&seen);
        let record = Record::in_order(2, writes.into_iter().chain([read]).collect()).opened(openings());
        Judged::new(&ask(&record.to_bytes()).expect("passes")).answer(1)
    };
    let write = || vec![Event::write(0, 0, 7)];
    assert_eq!([Some(7), Some(40), None].map(|value| seeing(write(), value)), [Met, Broken(1, 0), Broken(1, 0)]);
    let pending = || vec![Event::write(0, 0, 7).pending_from(0)];
    assert_eq!([Some(7), Some(40)].map(|value| seeing(pending(), value)), [Met, Broken(1, 0)]);
    // Reads of the object and writes of another one hide nothing.
    let others = || vec![Event::read(0, 0, Some(40)), Event::write(0, 1, 7)];
    assert_eq!([Some(40), Some(7), None].map(|value| seeing(others(), value)), [Met, Broken(2, 2), Broken(2, 2)]);
}

#[test]
fn unseen_writes_and_pending_reads() {
    let events = vec![
        Event::write(0, 0, 7).at(0, 1),
        Event::read(1, 0, Some(40)).at(2, 3),
        Event::read(1, 0, None).pending_from(4).sees(&[1]),
    ];
    let record = Record::in_order(2, events).opened(openings());
    assert_eq!(Judged::new(&ask(&record.to_bytes()).expect("passes")).answer(1), Met);
}

#[test]
fn models_go_by_the_opening() {
    let read = |value| Record::in_order(1, vec![Event::read(0, 0, value)]).opened(openings()).to_bytes();
    for model in 1..=7 {
        assert_eq!(judge_model(model, &read(Some(40))), 0);
        assert_eq!(judge_model(model, &read(None)), 1_048_576);
    }
    for model in 8..=13 {
        assert_eq!(judge_model(model, &read(None)), 0, "model {model} does not ask for values");
    }
}

/// Openings are the business of predicate 1 alone, and of no record that has none.
#[test]
fn other_predicates_do_not_look_at_openings() {
    for seed in 0..300 {
        let mut random = Random::new(seed);
        let n = random.index(20);
        let record = shapes::of_any_edition(&mut random, n);
        let answers = |record: Record| Judged::new(&record).answers();
        let old = answers(record.clone().in_edition(Edition::GCR1));
        let none = answers(record.clone().apart(0).opened(Openings::none()));
        assert_eq!(old, none, "seed {seed}");
        assert_eq!(old[1..], answers(record.clone().apart(0))[1..], "seed {seed}");
    }
}

fn opened(sites: usize, calls: &[Call]) -> (Vec<[u8; 8]>, Store) {
    run_opened(sites, openings(), calls)
}

fn held(store: &Store) -> Vec<Option<u32>> {
    store.record().events.iter().filter(|event| event.is_read()).map(|event| event.value).collect()
}

#[test]
fn gets_find_openings() {
    let (answers, store) = opened(2, &[get(0, 0), get(1, 6), get(1, 31), get(0, 1)]);
    assert_eq!(answers[0], [0, 1, 0, 0, 40, 0, 0, 0]);
    assert_eq!(answers[1], [0, 1, 1, 0, 0, 0, 0, 0], "0 is found");
    assert_eq!(answers[2], [0, 1, 2, 0, 255, 255, 255, 255]);
    assert_eq!(answers[3], [0, 0, 3, 0, 0, 0, 0, 0]);
    assert_eq!(held(&store), [Some(40), Some(0), Some(u32::MAX), None]);
    let record = store.record();
    assert_eq!((record.edition, record.openings), (Edition::GCR3, openings()));
}

#[test]
fn openings_lose_to_every_put() {
    // The lowest stamp and site, made here, delivered and brought by a close.
    let (_, store) = opened(3, &[put(0, 31, 1), deliver(0, 1), get(0, 31), get(1, 31), get(2, 31), Close, get(2, 31)]);
    assert_eq!(held(&store), [Some(1), Some(1), Some(u32::MAX), Some(1)]);
    let (_, store) = opened(1, &[put(0, 0, 0), get(0, 0)]);
    assert_eq!(held(&store), [Some(0)]);
}

#[test]
fn openings_are_no_puts() {
    let (answers, store) = opened(8, &[Close, deliver(0, 1), get(3, 0), Close, deliver(0, 1)]);
    assert_eq!(answers[0], [0, 1, 0, 0, 0, 0, 0, 0], "nothing is lacking");
    assert_eq!([answers[1][0], answers[4][0]], [33; 2]);
    assert_eq!((store.events(), store.puts(), store.outstanding()), (1, 0, 0));
    assert!(store.record().events[0].visible.iter().all(|&seen| !seen));
}

/// The number, whether both buffers stayed, and the record.
fn rehearsed(openings: &[u8], script: &[u8]) -> (Outcome, bool, Vec<u8>) {
    let (mut record, mut answers) = (vec![7; MOST_BYTES], vec![7; script.len()]);
    let outcome = rehearse(2, openings, script, &mut record, &mut answers);
    let stayed = record.iter().chain(&answers).all(|&byte| byte == 7);
    record.truncate(outcome.length);
    (outcome, stayed, record)
}

#[test]
fn rehearsals_write_the_new_edition() {
    for openings in [Openings::none(), openings()] {
        let (outcome, _, record) = rehearsed(&openings.to_bytes(), &script(&[put(0, 0, 1), get(1, 0)]));
        assert_eq!(outcome, Outcome { number: 0, length: 1_024, outstanding: 1 });
        assert_eq!(record[12..144], openings.to_bytes());
        assert_eq!(ask(&record).expect("passes").events[1].value, openings.of(0));
    }
}

#[test]
fn refused_openings_change_nothing() {
    let calls = script(&[put(0, 0, 1), get(1, 0)]);
    let mut slices: Vec<Vec<u8>> = [0, 1, 4, 128, 131, 133, 264].map(|length| vec![0; length]).to_vec();
    for object in 0..OBJECTS {
        let mut bytes = Openings::none().to_bytes().to_vec();
        bytes[value_at(object) + 3] = 1;
        slices.push(bytes);
    }
    for openings in slices {
        let (outcome, stayed, _) = rehearsed(&openings, &calls);
        assert_eq!((outcome, stayed), (Outcome::refused(40), true), "{openings:?}");
    }
}

#[test]
fn other_refusals_come_first() {
    let number = |sites, script: usize, record: usize, answers: usize, openings: usize| {
        let openings = vec![1; openings];
        rehearse(sites, &openings, &vec![0; script], &mut vec![7; record], &mut vec![7; answers]).packed()
    };
    for openings in [OPENINGS_BYTES - 1, OPENINGS_BYTES] {
        assert_eq!(number(0, 7, 0, 0, openings), 20);
        assert_eq!(number(1, 7, 0, 0, openings), 21);
        assert_eq!(number(1, 8, MOST_BYTES - 1, 0, openings), 22);
        assert_eq!(number(1, 8, MOST_BYTES, 7, openings), 23);
        assert_eq!(number(1, 8, MOST_BYTES, 8, openings), 40);
    }
}

/// What the program writes of a site count and openings, cut after so many bytes.
fn program(sites: u8, openings: &[u8], length: usize) -> Vec<u8> {
    lines::rehearsal(&[vec![sites], openings.to_vec()].concat()[..length])
}

#[test]
fn missing_bytes_of_openings_are_zero() {
    let empty = |openings| Record::in_order(2, vec![]).in_edition(Edition::GCR3).opened(openings).to_bytes();
    let bytes = openings().to_bytes();
    assert_eq!(program(2, &bytes, 1), empty(Openings::none()));
    assert_eq!(program(2, &bytes, 2), empty(Openings::none().with(0, 0).with(6, 0)), "only the first bits");
    assert_eq!(program(2, &bytes, 5), empty(Openings::none().with(0, 0).with(6, 0).with(31, 0)));
    assert_eq!(program(2, &bytes, 130), empty(Openings::none().with(0, 40).with(6, 0).with(31, 0xff)));
    assert_eq!(program(2, &bytes, 133), empty(openings()));
}

#[test]
fn refusals_of_the_program_in_order() {
    let wrong = [0, 0, 0, 0, 0, 1];
    assert_eq!(program(9, &wrong, 7), b"refused 20\n");
    assert_eq!(program(2, &wrong, 7), b"refused 40\n");
    assert_eq!(program(2, &wrong, 6), Record::in_order(2, vec![]).in_edition(Edition::GCR3).to_bytes());
    let mut long = vec![2];
    long.resize(1 + OPENINGS_BYTES + 7, 0);
    assert_eq!(lines::rehearsal(&long), b"refused 21\n");
    long[9] = 1;
    assert_eq!(lines::rehearsal(&long), b"refused 21\n", "21 is asked before 40");
    long.push(0);
    assert_eq!(lines::rehearsal(&long), b"refused 40\n");
    long[1] = 2;
    assert!(lines::rehearsal(&long).starts_with(b"GCR3"));
}
