//! Shortest chains against all chains there are, each written out, for up to five events.

use second::compare::subject::{Baseline, Explainer};
use second::explain::{explain, shortest_chain};
use second::generate::random::Random;
use second::generate::shapes;
use second::limits::ENTRIES;
use second::models::REFUSED;
use second::questions::ask;
use second::record::{Event, Record};
use second::relations::Pairs;

/// All lists of so many events, in the order in which each next event in turn is lower.
fn lists(n: usize, length: usize) -> impl Iterator<Item = Vec<usize>> {
    let digit = move |list: usize, at: usize| list / n.pow((length - 1 - at) as u32) % n;
    (0..n.pow(length as u32)).map(move |list| (0..length).map(|at| digit(list, at)).collect())
}

/// The first chain from a to b of the shortest there are. One of more than n steps could leave some out.
fn first_chain(n: usize, a: usize, b: usize, is_step: impl Fn(usize, usize) -> bool) -> Option<Vec<usize>> {
    let leads = |list: &Vec<usize>| {
        let from = [a].into_iter().chain(list.iter().copied());
        list.last() == Some(&b) && from.zip(list).all(|(from, &to)| is_step(from, to))
    };
    (1..=n).find_map(|length| lists(n, length).find(leads))
}

fn assert_shortest(step: &Pairs) {
    let n = step.events();
    for (a, b) in (0..n).flat_map(|a| (0..n).map(move |b| (a, b))) {
        let due = first_chain(n, a, b, |from, to| step.has(from, to));
        assert_eq!(shortest_chain(step, a, b), due, "{a} to {b} by {step:?}");
    }
}

fn by_bits(n: usize, bits: u64) -> Pairs {
    Pairs::such_that(n, |a, b| bits >> (a * n + b) & 1 == 1)
}

#[test]
fn of_all_steps_among_three_and_many_among_more() {
    (0..1 << 9).for_each(|bits| assert_shortest(&by_bits(3, bits)));
    let mut random = Random::new(7);
    for _ in 0..250 {
        let dense = random.word();
        let sparse = dense & random.word();
        for bits in [dense, sparse, sparse & random.word()] {
            assert_shortest(&by_bits(4, bits));
            assert_shortest(&by_bits(5, bits));
        }
    }
}

fn is_step(events: &[Event], from: usize, to: usize) -> bool {
    let (first, later) = (&events[from], &events[to]);
    later.visible[from] || (first.site == later.site && first.end.is_some_and(|end| end < later.start))
}

/// The first pair that hb has and vis or ar has not, with its chain.
fn first_broken(record: &Record, predicate: u32) -> Option<Vec<usize>> {
    let events = &record.events;
    let n = events.len();
    let right = |a: usize, b: usize| match predicate {
        10 => events[b].visible[a],
        _ => events[a].position < events[b].position,
    };
    let mut wrong = (0..n).flat_map(|a| (0..n).map(move |b| (a, b))).filter(|&(a, b)| !right(a, b));
    wrong.find_map(|(a, b)| first_chain(n, a, b, |from, to| is_step(events, from, to)))
}

/// What the second checker and the baseline tell of whole records.
#[test]
fn of_records_of_up_to_five_events() {
    let mut broken = [0; 2];
    for seed in 0..1_000 {
        let mut random = Random::new(seed);
        let n = 2 + random.index(4);
        let bytes = shapes::of_any_edition(&mut random, n).to_bytes();
        let record = ask(&bytes).expect("passes");
        for (at, predicate) in [10, 11].into_iter().enumerate() {
            let due = first_broken(&record, predicate);
            broken[at] += u32::from(due.is_some());
            let (mut second, mut baseline) = ([999; ENTRIES], [999; ENTRIES]);
            let answer = explain(predicate, &bytes, &mut second);
            assert_eq!(Baseline.explain(predicate, &bytes, &mut baseline), answer, "seed {seed}");
            assert_eq!(baseline, second, "seed {seed}");
            let told =
                (answer < REFUSED).then(|| second[..answer as usize].iter().map(|&entry| entry.into()).collect());
            assert_eq!(told, due, "seed {seed}, predicate {predicate}");
        }
    }
    assert!(broken.iter().all(|&count| count > 300), "{broken:?}");
}
