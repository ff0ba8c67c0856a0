//! The comparer finds deliberate faults of the call that explains, and so do a subject's own answers.

use second::compare::chains::steps_of;
use second::compare::explain;
use second::compare::held::{held, Told};
use second::compare::subject::{Baseline, Explainer, Judge};
use second::compare::tally::{Case, Tally};
use second::compare::ways::WRONG_WAYS;
use second::explain::{told, Explanations};
use second::generate;
use second::limits::ENTRIES;
use second::models::{refusal_in, refused, REFUSED};
use second::predicates::{Judged, PREDICATES};
use second::questions::{ask, Refusal};
use second::record::{Event, Record};

/// What a faulty call does with a predicate, a record and a slice.
type Call = fn(u32, &[u8], &mut [u16]) -> u64;

/// Judges rightly, and explains by this call.
struct Faulty(Call);

impl Judge for Faulty {
    fn judge_model(&self, model: u32, bytes: &[u8]) -> u64 {
        Baseline.judge_model(model, bytes)
    }

    fn judge_predicate(&self, predicate: u32, bytes: &[u8]) -> u64 {
        Baseline.judge_predicate(predicate, bytes)
    }

    fn judge_all(&self, bytes: &[u8], out: &mut [u64]) -> u64 {
        Baseline.judge_all(bytes, out)
    }
}

impl Explainer for Faulty {
    fn explain(&self, predicate: u32, bytes: &[u8], events: &mut [u16]) -> u64 {
        (self.0)(predicate, bytes, events)
    }
}

fn right(predicate: u32, bytes: &[u8], events: &mut [u16]) -> u64 {
    Baseline.explain(predicate, bytes, events)
}

fn at_0(number: u32) -> u64 {
    refused(Refusal { number, place: 0 })
}

/// Whether one of some seeds' records tells, of those small enough for slow ways.
fn found(call: Call) -> bool {
    (0..300).any(|seed| {
        let (bytes, mut tally) = (generate::to_explain(seed).bytes, Tally::counting());
        if bytes.len() < 4_000 {
            let case = Case { name: seed.to_string(), input: &bytes };
            explain::one_record(&Faulty(call), seed, &case, &mut tally);
        }
        tally.failed > 0
    })
}

fn assert_found(faults: &[(&str, Call)]) {
    assert!(!found(right));
    for &(name, call) in faults {
        assert!(found(call), "{name}");
    }
}

const OF_THE_SLICE: [(&str, Call); 6] = [
    ("an entry beyond cleared", |predicate, bytes, events| {
        let answer = right(predicate, bytes, events);
        if answer < ENTRIES as u64 {
            events[answer as usize] = 0;
        }
        answer
    }),
    ("the 385th cleared", |predicate, bytes, events| {
        let answer = right(predicate, bytes, events);
        if let (true, Some(entry)) = (answer < REFUSED, events.get_mut(ENTRIES)) {
            *entry = 0;
        }
        answer
    }),
    ("a refusal writes", |predicate, bytes, events| {
        let answer = right(predicate, bytes, events);
        if let (true, Some(entry)) = (answer == at_0(42), events.first_mut()) {
            *entry = 0;
        }
        answer
    }),
    ("41 writes", |predicate, bytes, events| {
        let answer = right(predicate, bytes, events);
        if answer == at_0(41) {
            events.fill(0);
        }
        answer
    }),
    ("one entry more", |predicate, bytes, events| {
        let answer = right(predicate, bytes, events);
        answer + u64::from(answer < REFUSED)
    }),
    ("a first", |predicate, bytes, events| {
        let answer = right(predicate, bytes, events);
        if answer >= ENTRIES as u64 {
            return answer;
        }
        events.copy_within(..answer as usize, 1);
        events[0] = (Baseline.judge_predicate(predicate, bytes) >> 10 & 1_023) as u16;
        answer + 1
    }),
];

#[test]
fn faults_of_the_slice_are_found() {
    assert_found(&OF_THE_SLICE);
}

const OF_THE_QUESTIONS: [(&str, Call); 9] = [
    ("41 before 2", |predicate, bytes, events| match events.len() {
        ..ENTRIES => at_0(41),
        _ => right(predicate, bytes, events),
    }),
    ("41 after 3", |predicate, bytes, events| {
        let judged = Baseline.judge_predicate(predicate, bytes);
        if judged == at_0(3) {
            return judged;
        }
        right(predicate, bytes, events)
    }),
    ("41 after 10", |predicate, bytes, events| match refusal_in(Baseline.judge_predicate(predicate, bytes)) {
        Some(refusal) => refused(refusal),
        None => right(predicate, bytes, events),
    }),
    ("41 after 42", |predicate, bytes, events| match Baseline.judge_predicate(predicate, bytes) {
        0 => at_0(42),
        _ => right(predicate, bytes, events),
    }),
    ("42 before 3 to 10", |predicate, bytes, events| {
        let answer = right(predicate, bytes, events);
        let of_record = refusal_in(answer).is_some_and(|refusal| (3..=10).contains(&refusal.number));
        if of_record {
            at_0(42)
        } else {
            answer
        }
    }),
    ("42 with a place", |predicate, bytes, events| {
        let answer = right(predicate, bytes, events);
        answer + u64::from(answer == at_0(42))
    }),
    ("met told by no entry", |predicate, bytes, events| match right(predicate, bytes, events) {
        answer if answer == at_0(42) => 0,
        answer => answer,
    }),
    ("383 entries will do", |predicate, bytes, events| {
        let mut long = [0; ENTRIES];
        let answer = right(predicate, bytes, &mut long);
        if events.len() != ENTRIES - 1 || answer >= ENTRIES as u64 {
            return right(predicate, bytes, events);
        }
        events[..answer as usize].copy_from_slice(&long[..answer as usize]);
        answer
    }),
    ("385 entries asked for", |predicate, bytes, events| match (predicate, events.len()) {
        (1..=13, ..=ENTRIES) => at_0(41),
        _ => right(predicate, bytes, events),
    }),
];

#[test]
fn faults_of_the_questions_are_found() {
    assert_found(&OF_THE_QUESTIONS);
}

/// The right explanations but for some that are others.
fn otherwise(bytes: &[u8], other: impl Fn(&Judged, u32, usize, &[usize]) -> Vec<usize>) -> Explanations {
    let record = ask(bytes)?;
    let judged = Judged::new(&record);
    let mut explanations = judged.explanations();
    for (predicate, explanation) in PREDICATES.zip(&mut explanations) {
        if let Some(explanation) = explanation {
            explanation.events = other(&judged, predicate, explanation.a, &explanation.events);
        }
    }
    Ok(explanations)
}

/// Of 10 and 11 by a wrong way; where it finds no chain, b alone.
fn by_way<const WAY: usize>(predicate: u32, bytes: &[u8], events: &mut [u16]) -> u64 {
    let wrong = |judged: &Judged, predicate: u32, a: usize, events: &[usize]| match (predicate, events) {
        (10 | 11, &[.., b]) => WRONG_WAYS[WAY].1(&judged.relations, a, b).unwrap_or(vec![b]),
        _ => events.to_vec(),
    };
    told(predicate, &otherwise(bytes, wrong), events)
}

#[test]
fn wrong_chains_are_found() {
    assert_found(&[
        (WRONG_WAYS[0].0, by_way::<0>),
        (WRONG_WAYS[1].0, by_way::<1>),
        (WRONG_WAYS[2].0, by_way::<2>),
        (WRONG_WAYS[3].0, by_way::<3>),
        (WRONG_WAYS[4].0, by_way::<4>),
        (WRONG_WAYS[5].0, by_way::<5>),
        (WRONG_WAYS[6].0, by_way::<6>),
        ("no steps round a ring", |predicate, bytes, events| {
            let last = |_: &Judged, _, a, events: &[usize]| match events {
                [.., b] if a == *b => vec![a],
                _ => events.to_vec(),
            };
            told(predicate, &otherwise(bytes, last), events)
        }),
        ("11 told by b alone", |predicate, bytes, events| {
            let alone = |_: &Judged, predicate, _, events: &[usize]| match (predicate, events) {
                (11, [.., b]) => vec![*b],
                _ => events.to_vec(),
            };
            told(predicate, &otherwise(bytes, alone), events)
        }),
    ]);
}

/// Of 5 and 8 another middle event, of all reads and writes that it may be one of.
fn by_middle(bytes: &[u8], take: impl Fn(&Judged, usize, usize) -> Option<usize>) -> Explanations {
    otherwise(bytes, |judged, predicate, a, events| match (predicate, events) {
        (5 | 8, &[middle, c]) => vec![take(judged, a, c).unwrap_or(middle), c],
        _ => events.to_vec(),
    })
}

#[test]
fn wrong_middle_events_are_found() {
    assert_found(&[
        ("the highest", |predicate, bytes, events| {
            let highest = |judged: &Judged, a, c| judged.middle_events(a, c).last().copied();
            told(predicate, &by_middle(bytes, highest), events)
        }),
        ("a write", |predicate, bytes, events| {
            let any = |judged: &Judged, a, c| {
                let between = |&b: &usize| judged.relations.vis.has(a, b) && judged.relations.so.has(b, c);
                (0..judged.events.len()).find(between)
            };
            told(predicate, &by_middle(bytes, any), events)
        }),
        ("not so", |predicate, bytes, events| {
            let seeing = |judged: &Judged, a, _| {
                let sees = |&b: &usize| judged.relations.vis.has(a, b) && judged.events[b].is_read();
                (0..judged.events.len()).find(sees)
            };
            told(predicate, &by_middle(bytes, seeing), events)
        }),
        ("not seeing", |predicate, bytes, events| {
            let before = |judged: &Judged, _, c| {
                let is_before = |&b: &usize| judged.relations.so.has(b, c) && judged.events[b].is_read();
                (0..judged.events.len()).find(is_before)
            };
            told(predicate, &by_middle(bytes, before), events)
        }),
    ]);
}

/// Whether a subject's own answer goes against its judging or the record.
fn against(record: &Record, predicate: u32, answer: u64, entries: &[u16]) -> bool {
    let judged = Baseline.judge_predicate(predicate, &record.to_bytes());
    let slice = [entries, &[7_777; ENTRIES]].concat();
    let mut tally = Tally::counting();
    let told = Told { predicate, judged, answer, slice: &slice };
    held(&told, Some(record), &Case { name: String::new(), input: &[] }, &mut tally);
    tally.failed == 1
}

/// 0 leads to 1 by 2 or by 3, by 4 and 5, and to 6. That 4 and 5 are one too many, no event of them tells.
fn record() -> Record {
    let mut events = vec![Event::write(0, 0, 1).at(0, 9); 7];
    for (from, to) in [(0, 2), (0, 3), (2, 1), (3, 1), (0, 4), (4, 5), (5, 1), (0, 6)] {
        events[to].visible[from] = true;
    }
    Record::in_order(1, events)
}

#[test]
fn own_answers_that_do_not_hold_are_found() {
    let record = record();
    assert!(!against(&record, 10, 2, &[2, 1]));
    for entries in [&[][..], &[1], &[2], &[6, 1], &[2, 7], &[3, 1], &[2, 1, 1], &[2, 7_777]] {
        assert!(against(&record, 10, entries.len() as u64, entries), "{entries:?}");
    }
    assert!(!against(&record, 10, 3, &[4, 5, 1]));
    for answer in [0, 1, 3, 400, at_0(42), at_0(41), at_0(10), u64::MAX] {
        assert!(against(&record, 10, answer, &[2, 1]), "{answer}");
    }
    assert!(!against(&record, 3, at_0(42), &[]));
    for answer in [0, 1, at_0(41), at_0(42) + 1, at_0(10)] {
        assert!(against(&record, 3, answer, &[1]), "{answer}");
    }
    assert!(!against(&record, 0, at_0(2), &[]) && against(&record, 0, at_0(42), &[]));
}

/// 0 is seen by the reads 1 and 2, which are so before the last; by write 3; and not by read 4.
#[test]
fn own_middle_events_that_do_not_hold_are_found() {
    let reads = [Event::read(0, 0, None), Event::read(1, 0, Some(1)).sees(&[0]), Event::read(1, 0, Some(1)).sees(&[0])];
    let others = [Event::write(1, 0, 2).sees(&[0]), Event::read(1, 0, None)].map(|event| event.at(0, 3));
    let first = reads.map(|event| event.at(0, 3)).into_iter().chain(others);
    let record = Record::in_order(2, first.chain([Event::read(1, 0, None).at(4, 5)]).collect());
    assert!(!against(&record, 5, 2, &[1, 5]));
    for entries in [&[5][..], &[2, 5], &[3, 5], &[4, 5], &[0, 5], &[1, 1, 5], &[1, 4]] {
        assert!(against(&record, 5, entries.len() as u64, entries), "{entries:?}");
    }
    assert!(!against(&record, 9, 1, &[5]) && against(&record, 9, 2, &[1, 5]));
}

/// The wrong ways give the right chain where there is no other.
#[test]
fn wrong_ways_find_a_lone_chain() {
    let mut events = vec![Event::write(0, 0, 1).at(0, 9); 4];
    for (from, to) in [(0, 3), (3, 2), (2, 1)] {
        events[to].visible[from] = true;
    }
    let record = Record::in_order(1, events);
    let judged = Judged::new(&record);
    let found = WRONG_WAYS.map(|(_, way)| way(&judged.relations, 0, 1));
    let lone = Some(vec![3, 2, 1]);
    assert_eq!(found[..3], [lone.clone(), lone.clone(), lone.clone()]);
    assert_eq!(found[3..], [Some(vec![1]), lone.clone(), lone, None]);
    assert_eq!(steps_of(0, &[3, 2, 1]).collect::<Vec<_>>(), [(0, 3), (3, 2), (2, 1)]);
}
