//! Change 1, close of trading: each of its readings by a script that tells, and closes against the deliveries that
//! they stand for.

mod calls;

use calls::{deliver, get, put, run};
use second::generate::random::Random;
use second::generate::scripts;
use second::predicates::{Answer, Judged};
use second::questions::ask;
use second::store::Call::Close;
use second::store::{run_script, Call, Store, CALL_BYTES};

/// A close's answer, where the copies fit in a byte.
fn closed(copies: u8) -> [u8; 8] {
    [0, 1, 0, 0, copies, 0, 0, 0]
}

#[test]
fn listing_closed() {
    let calls = [put(0, 5, 100), put(1, 5, 200), Close, get(0, 5), get(1, 5), Close];
    let (answers, store) = run(2, &calls);
    assert_eq!(answers[2], closed(2));
    assert_eq!(answers[3], [0, 1, 2, 0, 200, 0, 0, 0]);
    assert_eq!(answers[4], [0, 1, 3, 0, 200, 0, 0, 0]);
    assert_eq!(answers[5], closed(0), "byte 1 is set also where nothing was lacking");
    assert_eq!((store.events(), store.outstanding()), (4, 0));
}

#[test]
fn one_site_lacks_nothing() {
    let (answers, store) = run(1, &[Close, put(0, 0, 7), Close, get(0, 0), Close]);
    assert_eq!([answers[0], answers[2], answers[4]], [closed(0); 3]);
    assert_eq!(answers[3], [0, 1, 1, 0, 7, 0, 0, 0]);
    assert_eq!(store.events(), 2);
}

#[test]
fn full_store_still_closes() {
    let mut calls: Vec<Call> = (0..384).map(|k| put(k % 8, k % 32, k as u32)).collect();
    calls.extend([Close, put(0, 0, 1), get(7, 31), Close]);
    let (answers, store) = run(8, &calls);
    assert_eq!(answers[384], [0, 1, 0, 0, 128, 10, 0, 0], "384 puts to 7 sites each are 2,688 copies");
    assert_eq!([answers[385][0], answers[386][0]], [34; 2]);
    assert_eq!(answers[387], closed(0));
    assert_eq!((store.events(), store.outstanding()), (384, 0));
    assert!(store.cells_agree());
}

#[test]
fn closes_not_well_formed() {
    for sites in [1, 8] {
        let mut store = Store::new(sites);
        store.call(&put(0, 0, 1).to_bytes());
        let before = store.clone();
        for byte in 1..CALL_BYTES {
            for wrong in [1, 2, 128, 255] {
                let mut call = Close.to_bytes();
                call[byte] = wrong;
                assert_eq!(store.call(&call), [31, 0, 0, 0, 0, 0, 0, 0], "{call:?}");
            }
        }
        assert_eq!(store, before, "a refused close changes nothing");
    }
}

#[test]
fn bytes_of_a_close() {
    assert_eq!(Close.to_bytes(), [4, 0, 0, 0, 0, 0, 0, 0]);
    assert_eq!(Call::from_bytes(&Close.to_bytes()), Some(Close));
}

#[test]
fn close_is_no_event() {
    let (answers, store) = run(2, &[Close, put(0, 0, 1), Close, put(1, 0, 2), Close]);
    assert_eq!([answers[1], answers[3]], [[0; 8], [0, 0, 1, 0, 0, 0, 0, 0]]);
    let (_, delivered) = run(2, &[put(0, 0, 1), deliver(0, 1), put(1, 0, 2), deliver(1, 0)]);
    assert_eq!(store, delivered, "a close leaves nothing but its deliveries");
    assert_eq!(store.record().to_bytes(), delivered.record().to_bytes());
}

#[test]
fn needs_are_met_in_order() {
    // 'Edges' has this delivery of event 1 refused by 36; a close brings event 0 first.
    let calls = [put(0, 0, 1), deliver(0, 1), put(1, 0, 2), deliver(1, 2), Close, deliver(1, 2), get(2, 0)];
    let (answers, store) = run(3, &calls);
    assert_eq!(answers[3][0], 36);
    assert_eq!(answers[4], closed(3));
    assert_eq!(answers[5][0], 35);
    assert_eq!(answers[6], [0, 1, 2, 0, 2, 0, 0, 0]);
    assert_eq!(store.outstanding(), 0);
}

#[test]
fn clock_rises_to_the_stamp_and_no_further() {
    let (_, store) = run(2, &[put(1, 0, 1), put(1, 0, 2), Close, put(0, 0, 3), put(1, 0, 4)]);
    let positions: Vec<u16> = store.record().events.iter().map(|event| event.position).collect();
    // Both last puts have stamp 3, so the lower site stands first.
    assert_eq!(positions, [0, 1, 2, 3]);
}

#[test]
fn reads_travel_only_with_a_later_put() {
    let (_, store) = run(2, &[get(0, 0), put(0, 0, 1), get(0, 0), Close, get(1, 0)]);
    let seen = store.record().events[3].visible;
    assert_eq!(seen[..4], [true, true, false, false]);
}

/// The deliveries that a close stands for, made as calls: puts by event number, sites in rising order.
fn deliver_all_lacking(store: &mut Store, sites: usize) -> u32 {
    let mut copies = 0;
    for event in 0..store.events() {
        for site in 0..sites {
            match store.call(&deliver(event, site).to_bytes())[0] {
                0 => copies += 1,
                number => assert!(matches!(number, 33 | 35), "event {event} to site {site} is refused by {number}"),
            }
        }
    }
    copies
}

/// Closes the store, and holds that against its deliveries.
fn close_checked(store: &mut Store, sites: usize) {
    let mut by_hand = store.clone();
    let lacking = store.outstanding() as u32;
    let answer = store.call(&Close.to_bytes());
    let copies = deliver_all_lacking(&mut by_hand, sites);
    assert_eq!(copies, lacking);
    assert_eq!(answer, [[0, 1, 0, 0], copies.to_le_bytes()].concat()[..]);
    assert_eq!(*store, by_hand);
    assert!(store.outstanding() == 0 && store.cells_agree());
}

/// Goes through a script, and gives how many closes it had.
fn closes_checked(sites: usize, script: &[u8]) -> usize {
    let (mut store, mut closes) = (Store::new(sites), 0);
    for call in script.chunks_exact(CALL_BYTES) {
        if call == Close.to_bytes() {
            close_checked(&mut store, sites);
            closes += 1;
        } else {
            store.call(call);
        }
    }
    closes
}

#[test]
fn closes_are_their_deliveries() {
    let checked = |seed| {
        let (sites, script) = scripts::plausible(&mut Random::new(seed));
        closes_checked(sites as usize, &script)
    };
    let closes: usize = (0..600).map(checked).sum();
    assert!(closes > 2_000, "{closes}");
}

#[test]
fn days_with_closes_are_causal() {
    for sites in 1..=8 {
        let script = scripts::day_with_closes(sites as u64, sites);
        let store = run_script(sites, &script, &mut vec![0; script.len()]);
        let record = ask(&store.record().to_bytes()).expect("passes every question");
        let judged = Judged::new(&record);
        assert_eq!([10, 11, 1].map(|predicate| judged.answer(predicate)), [Answer::Met; 3], "{sites} sites");
    }
}
