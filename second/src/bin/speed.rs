//! How long the baseline takes, best of several rounds.

use second::baseline::columns::Columns;
use second::baseline::{explaining, judging, reading, rehearsal};
use second::generate::{chains, scripts, sweeps};
use second::limits::{ENTRIES, MOST_BYTES, MOST_EVENTS, WORK_WORDS};
use second::openings::Openings;
use second::record::{Event, Record};
use second::samples::in_turn;
use second::store::Store;
use std::hint::black_box;
use std::time::{Duration, Instant};

fn main() {
    let [older, one_site] = [256, 384].map(|n| in_turn(n).to_bytes());
    let script = scripts::full_day(1, 8);
    let (none, all) = (Openings::none(), sweeps::figures(|_| true));
    let [rehearsed, opened] = [none, all].map(|openings| after(openings, &script).to_bytes());
    let ring = whole_ring().to_bytes();
    let dense = [("256 events, one site, dense", &older), ("384 events, one site, dense", &one_site)];
    for (name, record) in dense.into_iter().chain([("rehearsed", &rehearsed), ("ring of 384", &ring)]) {
        report(&format!("read: {name}"), reading(record));
    }
    for (name, record) in dense.into_iter().chain([("rehearsed", &rehearsed), ("with openings", &opened)]) {
        report(&format!("read and judge all thirteen: {name}"), judging(record));
        report(&format!("host call, model 4: {name}"), hosting(record));
    }
    let long = ["chain-of-255-rising", "chain-of-383-rising", "ring-of-384-rising", "longest-narrow-ladder-rising"];
    for (name, record) in chains::fixed().into_iter().filter(|(name, _)| long.contains(&name.as_str())) {
        report(&format!("explain predicate 10: {name}"), explaining(&record));
    }
    report("rehearse 4,096 calls, 384 events, 8 sites", rehearsing(none, &script));
    report("rehearse them with openings", rehearsing(all, &script));
    report("rehearse such a day with closes", rehearsing(none, &scripts::day_with_closes(1, 8)));
}

fn report(name: &str, best: Duration) {
    println!("{:>9.2} us  {name}", best.as_secs_f64() * 1e6);
}

/// The best round's time for one call; many short rounds, as others may share the machine.
fn best_of(mut call: impl FnMut()) -> Duration {
    const CALLS: u32 = 20;
    let round = |_| {
        let begun = Instant::now();
        (0..CALLS).for_each(|_| call());
        begun.elapsed() / CALLS
    };
    (0..400).map(round).min().expect("some rounds")
}

fn reading(record: &[u8]) -> Duration {
    let mut work = vec![0; WORK_WORDS];
    best_of(|| {
        black_box(reading::read(black_box(record), &mut work));
    })
}

fn judging(record: &[u8]) -> Duration {
    let mut columns = Columns::new();
    best_of(|| {
        judging::prepare(black_box(record), &mut columns).expect("passes");
        black_box(columns.all_broken());
    })
}

fn hosting(record: &[u8]) -> Duration {
    best_of(|| {
        black_box(judging::judge_model(4, black_box(record)));
    })
}

fn explaining(record: &[u8]) -> Duration {
    let mut events = [0; ENTRIES];
    best_of(|| {
        black_box(explaining::explain(10, black_box(record), &mut events));
    })
}

fn rehearsing(openings: Openings, script: &[u8]) -> Duration {
    let (mut record, mut answers) = (vec![0; MOST_BYTES], vec![0; script.len()]);
    let openings = openings.to_bytes();
    best_of(|| {
        black_box(rehearsal::rehearse(8, black_box(&openings), black_box(script), &mut record, &mut answers));
    })
}

/// What the script leaves.
fn after(openings: Openings, script: &[u8]) -> Record {
    let mut store = Store::opened(8, openings);
    store.run(script, &mut vec![0; script.len()]);
    store.record()
}

/// Every event sees the next, the last the first.
fn whole_ring() -> Record {
    let events = (0..MOST_EVENTS).map(|k| Event::write(0, 0, 1).sees(&[(k + 1) % MOST_EVENTS]));
    Record::in_order(1, events.collect())
}
