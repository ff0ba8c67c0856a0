//! Change 2, copies still on the lines: scripts whose copies are worked out by hand, and the equation after every call
//! of many.

mod calls;

use calls::{deliver, get, put, run, script};
use second::compare::copies::Copies;
use second::generate::random::Random;
use second::generate::scripts;
use second::openings::OPENINGS_BYTES;
use second::samples::listing_script;
use second::store::Call::Close;
use second::store::{rehearse, run_script, Call, Outcome, Store, CALL_BYTES};

fn copies(sites: usize, script: &[u8]) -> Copies {
    let mut answers = vec![0; script.len()];
    let store = run_script(sites, script, &mut answers);
    Copies::of(sites as u32, script, &answers, store.outstanding())
}

/// By hand: puts and other sites, then deliveries, copies of closes and outstanding, which make their product.
fn assert_copies(sites: usize, script: &[u8], by_hand: [u64; 5]) {
    let found = copies(sites, script);
    let terms = [found.puts, found.other_sites, found.by_deliveries, found.by_closes, found.outstanding];
    assert_eq!(terms, by_hand);
    assert!(found.add_up());
}

/// The copies outstanding after each call.
fn step_by_step(sites: usize, script: &[u8]) -> Vec<usize> {
    let mut store = Store::new(sites);
    let after = |call| {
        store.call(call);
        store.outstanding()
    };
    script.chunks_exact(CALL_BYTES).map(after).collect()
}

#[test]
fn listing_leaves_none() {
    assert_eq!(step_by_step(2, &listing_script()), [1, 2, 1, 1, 1, 0, 0]);
    assert_copies(2, &listing_script(), [2, 1, 2, 0, 0]);
}

#[test]
fn put_after_a_close() {
    let script = script(&[put(0, 5, 1), put(1, 5, 2), Close, put(2, 5, 3)]);
    assert_eq!(step_by_step(3, &script), [2, 4, 0, 2]);
    assert_copies(3, &script, [3, 2, 0, 4, 2]);
}

#[test]
fn deliveries_and_closes_beside_each_other() {
    let calls =
        [put(0, 0, 1), deliver(0, 1), Close, put(1, 0, 2), deliver(1, 0), Close, Close, put(2, 0, 3), deliver(2, 0)];
    assert_eq!(step_by_step(3, &script(&calls)), [2, 1, 0, 2, 1, 0, 0, 2, 1]);
    assert_copies(3, &script(&calls), [3, 2, 3, 2, 1]);
}

#[test]
fn one_site_lacks_nothing() {
    assert_copies(1, &script(&[put(0, 0, 1), get(0, 0), put(0, 1, 2), Close]), [2, 0, 0, 0, 0]);
}

#[test]
fn nothing_to_deliver() {
    assert_copies(3, &[], [0, 2, 0, 0, 0]);
    assert_copies(3, &script(&[get(0, 0), get(1, 0), Close, get(2, 0)]), [0, 2, 0, 0, 0]);
}

/// Site 1 comes to know the get before the delivered put, and no site ever those after it.
#[test]
fn gets_have_no_copies() {
    let calls = [get(0, 0), put(0, 0, 1), get(0, 0), get(1, 0), put(1, 0, 2), deliver(1, 1)];
    assert_eq!(step_by_step(2, &script(&calls)), [0, 1, 1, 1, 2, 1]);
    assert_copies(2, &script(&calls), [2, 1, 1, 0, 1]);
}

#[test]
fn most_outstanding() {
    let mut calls: Vec<Call> = (0..384).map(|k| put(k % 8, k % 32, 1)).collect();
    assert_copies(8, &script(&calls), [384, 7, 0, 0, 2_688]);
    calls.extend([put(0, 0, 1), get(7, 0)]);
    assert_copies(8, &script(&calls), [384, 7, 0, 0, 2_688]);
    calls.extend([deliver(0, 1), Close]);
    assert_copies(8, &script(&calls), [384, 7, 1, 2_687, 0]);
}

#[test]
fn refused_calls_have_no_copies() {
    let done = [put(0, 0, 1), deliver(0, 1), put(1, 0, 2)];
    let refused =
        [put(3, 0, 1), put(0, 32, 1), deliver(0, 3), deliver(2, 0), deliver(0, 1), deliver(1, 1), deliver(1, 2)];
    let calls: Vec<Call> = done.into_iter().chain(refused).collect();
    let (answers, _) = run(3, &calls);
    let numbers: Vec<u8> = answers.iter().map(|answer| answer[0]).collect();
    assert_eq!(numbers, [0, 0, 0, 32, 33, 32, 33, 35, 35, 36]);
    let malformed: [[u8; 8]; 3] = [[1, 0, 0, 1, 0, 0, 0, 0], [3, 2, 1, 0, 0, 0, 0, 0], [4, 1, 0, 0, 0, 0, 0, 0]];
    assert_copies(3, &[script(&calls), malformed.concat()].concat(), [2, 2, 1, 0, 3]);
}

#[test]
fn refused_rehearsals_tell_nothing() {
    let puts = script(&[put(0, 0, 1), put(1, 0, 2)]);
    let outcome = |sites, script: &[u8], record, answers| {
        rehearse(sites, &[0; OPENINGS_BYTES], script, &mut vec![7; record], &mut vec![7; answers])
    };
    assert_eq!(outcome(2, &puts, 33_280, 16), Outcome { number: 0, length: 1_024, outstanding: 2 });
    assert_eq!(outcome(0, &puts, 33_280, 16), Outcome::refused(20));
    assert_eq!(outcome(9, &puts, 33_280, 16), Outcome::refused(20));
    assert_eq!(outcome(2, &puts[1..], 33_280, 16), Outcome::refused(21));
    assert_eq!(outcome(2, &puts, 33_279, 16), Outcome::refused(22));
    assert_eq!(outcome(2, &puts, 33_280, 15), Outcome::refused(23));
    assert_eq!(Outcome::refused(23).packed(), 23);
}

#[test]
fn results_come_apart() {
    for result in [0, 23, 256 * 33_280 + 16_777_216 * 2_688, u64::MAX] {
        assert_eq!(Outcome::unpacked(result).packed(), result);
    }
    let most = Outcome { number: 0, length: 33_280, outstanding: 2_688 };
    assert_eq!(Outcome::unpacked(256 * 33_280 + 16_777_216 * 2_688), most);
}

#[test]
fn one_copy_more_or_less_does_not_add_up() {
    let right = copies(3, &script(&[put(0, 0, 1), deliver(0, 1), Close, put(1, 0, 2)]));
    assert!(right.add_up());
    for outstanding in [right.outstanding - 1, right.outstanding + 1] {
        assert!(!Copies { outstanding, ..right }.add_up());
    }
    assert!(!Copies { puts: right.puts + 1, ..right }.add_up());
    assert!(!Copies { by_deliveries: right.by_deliveries + 1, ..right }.add_up());
    assert!(!Copies { by_closes: right.by_closes - 1, ..right }.add_up());
}

/// Whatever comes first of a script is a script too.
#[test]
fn copies_add_up_after_every_call() {
    for seed in 0..300 {
        let (sites, script) = scripts::plausible(&mut Random::new(seed));
        let (mut store, mut answers) = (Store::new(sites as usize), vec![]);
        for call in script.chunks_exact(CALL_BYTES).take(400) {
            answers.extend(store.call(call));
            let copies = Copies::of(sites, &script, &answers, store.outstanding());
            assert!(copies.add_up(), "seed {seed}: {copies:?}");
        }
    }
}
