//! The generators reach what they are for.

use second::compare::copies::{calls_answered, Copies};
use second::compare::occurrences::Row;
use second::compare::tally::Tally;
use second::compare::{answered, explain, models, must_occur, programs, rehearsal, Seeds};
use second::generate::random::Random;
use second::generate::{apart, chains, meeting, record, scripts, to_explain};
use second::models::{answers, judge_model, MET, MODELS};
use second::predicates::Answer::{Broken, Met};
use second::predicates::{Judged, PREDICATES};
use second::questions::ask;
use second::record::u32_at;
use second::store::{rehearse, run_script, Call, Store, CALL_BYTES};
use std::collections::{BTreeMap, BTreeSet};

#[test]
fn every_refusal_at_many_places() {
    let mut places: BTreeMap<u32, Vec<u32>> = BTreeMap::new();
    for seed in 0..5_000 {
        if let Err(refusal) = ask(&record(seed).bytes) {
            places.entry(refusal.number).or_default().push(refusal.place);
        }
    }
    assert_eq!(places.keys().copied().collect::<Vec<_>>(), [3, 4, 5, 6, 7, 8, 9, 10]);
    for number in [4, 7, 8, 9, 10] {
        let found = places.get_mut(&number).expect("reached");
        found.sort();
        found.dedup();
        assert!(found.len() >= 12, "question {number} at {found:?}");
    }
}

#[test]
fn every_predicate_met_and_broken() {
    let mut met = [0; 13];
    let mut broken = [0; 13];
    let mut twice = [0; 13];
    for seed in 0..5_000 {
        let Ok(record) = ask(&record(seed).bytes) else { continue };
        if record.events.len() > 24 {
            continue;
        }
        for (at, answer) in Judged::new(&record).answers().into_iter().enumerate() {
            match answer {
                Met => met[at] += 1,
                Broken(a, b) => {
                    broken[at] += 1;
                    twice[at] += (a == b) as u32;
                }
            }
        }
    }
    assert!(met.iter().chain(&broken).all(|&count| count >= 60), "{met:?} {broken:?}");
    assert!([1, 5, 8, 10, 11].iter().all(|&number| twice[number - 1] >= 5), "{twice:?}");
}

#[test]
fn records_meet_what_they_are_made_for() {
    let lone = PREDICATES.map(|predicate| vec![predicate]);
    for predicates in lone.chain(MODELS.map(|list| list.to_vec())) {
        for seed in 0..60 {
            let mut random = Random::new(seed);
            let n = random.index(12);
            let record = meeting::record(&mut random, n, &predicates);
            ask(&record.to_bytes()).expect("passes every question");
            let judged = Judged::new(&record);
            let met = predicates.iter().all(|&predicate| judged.answer(predicate) == Met);
            assert!(met, "{predicates:?} by seed {seed}");
        }
    }
}

#[test]
fn records_apart_meet_their_model() {
    for model in apart::MODELS {
        for seed in 0..500 {
            let mut random = Random::new(seed);
            let n = random.index(12);
            let bytes = apart::record(&mut random, n, model).to_bytes();
            assert_eq!(judge_model(model, &bytes), MET, "model {model} by seed {seed}");
        }
    }
}

/// Over the seeds of a CI run every listed answer occurs twenty times and more, and no other answer does.
fn assert_all_occur(lists: &[&[Row]], seeds: u64, count: impl FnMut(u64, &mut Tally)) {
    let mut tally = Tally::counting();
    for list in lists {
        tally.occurrences.must(list);
    }
    let listed = tally.occurrences.rarer_than(u64::MAX);
    Seeds::first(seeds).each(&mut tally, count);
    assert_eq!(tally.occurrences.rarer_than(u64::MAX), listed);
    assert!(tally.occurrences.rarer_than(20).is_empty(), "{}", tally.occurrences.table());
}

#[test]
fn every_answer_of_records() {
    let of_models = [must_occur::MODELS, must_occur::MODEL_CLOCKS, must_occur::MODELS_APART];
    let of_records = [must_occur::READS, must_occur::CLOCKS, must_occur::RETURNS];
    let of_all = [must_occur::EDITIONS, must_occur::LATE_BREAKS];
    let lists = [&of_models[..], &of_records, &of_all].concat();
    assert_all_occur(&lists, 5_000, |seed, tally| {
        let bytes = record(seed).bytes;
        models::count(&bytes, &answers(&bytes), tally);
        answered::number_given(14, tally);
    });
}

#[test]
fn every_answer_of_explanations() {
    let lists = [must_occur::EXPLAIN, must_occur::CHAINS, must_occur::CHAINS_TOLD, must_occur::MIDDLES];
    assert_all_occur(&lists, 5_000, |seed, tally| {
        explain::found(&ask(&to_explain(seed).bytes), tally).ok();
    });
}

/// Vis alone never leads round, so that 10 refuses none of them.
#[test]
fn records_of_chains_pass() {
    for seed in 0..1_000 {
        let bytes = chains::record(&mut Random::new(seed)).to_bytes();
        assert!(ask(&bytes).is_ok(), "seed {seed}");
    }
    assert!(chains::fixed().iter().all(|(_, bytes)| ask(bytes).is_ok()));
}

#[test]
fn every_answer_of_calls_and_rehearsals() {
    let lists = [must_occur::REHEARSAL, must_occur::STORE_OPENINGS, must_occur::STORE_EVENTS, must_occur::CALLS];
    assert_all_occur(&lists, 5_000, |seed, tally| {
        let given = scripts::rehearsal(seed);
        let (mut record, mut answers) = (vec![0; given.record_bytes], vec![0; given.answer_bytes]);
        let outcome = rehearse(given.sites, &given.openings, &given.script, &mut record, &mut answers);
        rehearsal::count_occurrences(&given, &outcome, &record, &answers, tally);
    });
}

#[test]
fn every_answer_of_the_rehearsing_program() {
    let lists = [must_occur::REHEARSE, must_occur::STORE_OPENINGS, must_occur::STORE_EVENTS, must_occur::CALLS];
    assert_all_occur(&lists, 5_000, |seed, tally| {
        programs::rehearse_due(&scripts::program_input(seed), tally);
    });
}

/// A close of a script: its place, how many events were done before it, and what it delivered.
struct Closed {
    at: usize,
    events: usize,
    copies: u32,
}

fn closes(sites: usize, script: &[u8]) -> Vec<Closed> {
    let mut store = Store::new(sites);
    let run = |(at, call): (usize, &[u8])| {
        let events = store.events();
        let answer = store.call(call);
        (call == Call::Close.to_bytes()).then(|| Closed { at, events, copies: u32_at(&answer, 4) })
    };
    script.chunks_exact(CALL_BYTES).enumerate().filter_map(run).collect()
}

/// How a script's closes lie and what they meet.
fn sorts_of_closes(sites: usize, closes: &[Closed]) -> [(&'static str, bool); 9] {
    let full = |close: &&Closed| close.events == 384;
    [
        ("none", closes.is_empty()),
        ("one", closes.len() == 1),
        ("several", closes.len() > 1),
        ("two in a row", closes.windows(2).any(|pair| pair[0].at + 1 == pair[1].at)),
        ("four in a row", closes.windows(4).any(|row| row[0].at + 3 == row[3].at)),
        ("one site", sites == 1 && !closes.is_empty()),
        ("copies to a full store", closes.iter().filter(full).any(|close| close.copies > 0)),
        ("none lacking in a full store", closes.iter().filter(full).any(|close| close.copies == 0)),
        ("more copies than a byte holds", closes.iter().any(|close| close.copies > 255)),
    ]
}

#[test]
fn closes_of_every_sort() {
    let mut scripts_with: BTreeMap<&str, u32> = BTreeMap::new();
    for seed in 0..2_000 {
        let (sites, script) = scripts::plausible(&mut Random::new(seed));
        for (sort, there) in sorts_of_closes(sites as usize, &closes(sites as usize, &script)) {
            *scripts_with.entry(sort).or_default() += there as u32;
        }
    }
    assert!(scripts_with.values().all(|&count| count >= 20), "{scripts_with:?}");
}

/// In one byte alone, so that whoever overlooks this byte is found.
#[test]
fn closes_damaged_in_every_byte() {
    let mut damaged = [0; CALL_BYTES];
    for seed in 0..2_000 {
        let (_, script) = scripts::plausible(&mut Random::new(seed));
        for call in script.chunks_exact(CALL_BYTES).filter(|call| call[0] == 4) {
            let wrong: Vec<usize> = (1..CALL_BYTES).filter(|&byte| call[byte] != 0).collect();
            if let [byte] = wrong[..] {
                damaged[byte] += 1;
            }
        }
    }
    assert!(damaged[1..].iter().all(|&count| count >= 20), "{damaged:?}");
}

/// A seed's script, its answers, and what became of its copies.
fn copies_of(seed: u64) -> (Vec<u8>, Vec<u8>, Copies) {
    let (sites, script) = scripts::plausible(&mut Random::new(seed));
    let mut answers = vec![0; script.len()];
    let outstanding = run_script(sites as usize, &script, &mut answers).outstanding();
    let copies = Copies::of(sites, &script, &answers, outstanding);
    (script, answers, copies)
}

/// Each kind of call and each of its answers, so that whoever counts one of them wrongly is found.
#[test]
fn every_answer_beside_outstanding_copies() {
    let mut scripts_with: BTreeMap<(u8, u8), u32> = BTreeMap::new();
    for (script, answers, _) in (0..2_000).map(copies_of).filter(|(_, _, copies)| copies.outstanding > 0) {
        let kinds = calls_answered(&script, &answers).map(|(call, answer)| (call[0], answer[0]));
        kinds.collect::<BTreeSet<_>>().into_iter().for_each(|kind| *scripts_with.entry(kind).or_default() += 1);
    }
    let put = [(1, 0), (1, 31), (1, 32), (1, 33), (1, 34)];
    let get = [(2, 0), (2, 31), (2, 32), (2, 33), (2, 34)];
    let delivery_or_close = [(3, 0), (3, 31), (3, 32), (3, 33), (3, 35), (3, 36), (4, 0), (4, 31)];
    let mut due = put.iter().chain(&get).chain(&delivery_or_close);
    assert!(due.all(|kind| scripts_with.get(kind).is_some_and(|&count| count >= 20)), "{scripts_with:?}");
}

#[test]
fn many_puts_delivered_everywhere_at_any_sites() {
    let mut by_other_sites = [0; 8];
    for (_, _, copies) in (0..2_000).map(copies_of) {
        let everywhere = copies.puts >= 8 && copies.by_closes == 0 && copies.outstanding == 0;
        by_other_sites[copies.other_sites as usize] += everywhere as u32;
    }
    assert!(by_other_sites.iter().all(|&count| count >= 5), "{by_other_sites:?}");
}

#[test]
fn days_fill_the_store() {
    for script in [scripts::full_day(1, 8), scripts::day_with_closes(1, 8)] {
        let store = run_script(8, &script, &mut vec![0; script.len()]);
        assert_eq!((script.len(), store.events()), (32_768, 384));
    }
    assert!(closes(8, &scripts::full_day(1, 8)).is_empty());
    let closes = closes(8, &scripts::day_with_closes(1, 8));
    let with_copies = closes.iter().filter(|close| close.copies > 0).count();
    assert!(closes.len() > 200 && with_copies > 50, "{} closes, {with_copies} with copies", closes.len());
}

#[test]
fn same_seed_same_record() {
    for seed in 0..50 {
        assert_eq!(record(seed).bytes, record(seed).bytes);
    }
}
