//! Records and scripts, always the same.

use gcr::Openings;
use second::generate::scripts::{day_with_closes, full_day};
use second::limits::MOST_EVENTS;
use second::record::{Event, Record};
use second::samples::in_turn;
use second::store::{run_script, Call, Store, CALL_BYTES};
use std::rc::Rc;

pub const SITES: usize = 8;

/// A record's or a script's bytes, under the name and the count of events that the table shows. The openings are a
/// script's; a record has its own within its bytes.
pub struct Input {
    pub name: &'static str,
    pub n: usize,
    pub openings: Openings,
    pub bytes: Vec<u8>,
}

impl Input {
    fn new(name: &'static str, n: usize, bytes: Vec<u8>) -> Rc<Input> {
        Input::opened(name, n, Openings::none(), bytes)
    }

    fn opened(name: &'static str, n: usize, openings: Openings, bytes: Vec<u8>) -> Rc<Input> {
        Rc::new(Input { name, n, openings, bytes })
    }
}

/// Every event sees all before it: one site, one object. All thirteen predicates are met.
pub fn dense(n: usize) -> Rc<Input> {
    Input::new("dense", n, in_turn(n).to_bytes())
}

/// Eight sites side by side that never hear of each other, each on objects of its own: an event sees only those
/// before it at its site. All predicates but 2 are met, which no sparse record of returned events meets.
pub fn sparse(n: usize) -> Rc<Input> {
    Input::new("sparse", n, side_by_side(n).to_bytes())
}

fn side_by_side(n: usize) -> Record {
    let event = |k: usize| {
        let (site, turn) = (k % SITES, k / SITES);
        let object = (4 * site + turn / 2 % 4) as u8;
        let event = match turn % 2 {
            0 => Event::write(site as u8, object, k as u32),
            _ => Event::read(site as u8, object, Some((k - SITES) as u32)),
        };
        let before: Vec<usize> = (site..k).step_by(SITES).collect();
        event.at(2 * k as u64, 2 * k as u64 + 1).sees(&before)
    };
    Record::in_order(SITES as u8, (0..n).map(event).collect())
}

/// The same events, seconds apart, by clocks that are further ahead from site to site. They may differ by half of the
/// record's time, and the last site's does: only so 3 and 4 are met.
pub fn clocks(n: usize) -> Rc<Input> {
    const STEP: u64 = 8_000_000;
    let difference = STEP * n as u64;
    let mut record = side_by_side(n).apart(difference as u32);
    for event in &mut record.events {
        let ahead = difference / (SITES as u64 - 1) * u64::from(event.site);
        event.start = STEP * event.start + ahead;
        event.end = event.end.map(|end| STEP * end + ahead);
    }
    Input::new("clocks", n, record.to_bytes())
}

/// The same events, where no read returned. These are before nothing, and hold no value.
pub fn pending(n: usize) -> Rc<Input> {
    let mut record = side_by_side(n);
    for event in record.events.iter_mut().filter(|event| event.is_read()) {
        (event.end, event.value) = (None, None);
    }
    Input::new("pending", n, record.to_bytes())
}

/// Every object opens with a figure. Eight sites side by side as in `sparse`, but a read is of an object that the next
/// site writes, and which it does not see written: it holds the opening. 2 and 13 are broken.
pub fn opened(n: usize) -> Rc<Input> {
    let event = |k: usize| {
        let (site, turn) = (k % SITES, k / SITES);
        let object = |site: usize| 4 * (site % SITES) + turn / 2 % 4;
        let event = match turn % 2 {
            0 => Event::write(site as u8, object(site) as u8, k as u32),
            _ => Event::read(site as u8, object(site + 1) as u8, Some(figure(object(site + 1)))),
        };
        let before: Vec<usize> = (site..k).step_by(SITES).collect();
        event.at(2 * k as u64, 2 * k as u64 + 1).sees(&before)
    };
    let record = Record::in_order(SITES as u8, (0..n).map(event).collect()).opened(of_all_objects());
    Input::new("openings", n, record.to_bytes())
}

fn figure(object: usize) -> u32 {
    1_000 + object as u32
}

/// Openings as the second checker has them.
fn of_all_objects() -> second::openings::Openings {
    second::openings::Openings::from_figures(std::array::from_fn(|object| Some(figure(object))))
}

/// The same as the bindings have them.
fn given_of_all_objects() -> Openings {
    (0..32).fold(Openings::none(), |openings, object| openings.with(object, figure(object.into())).expect("below 32"))
}

/// The dense record with its events numbered from the last to the first, so that work which goes by number meets
/// everything in the wrong order.
pub fn backward(n: usize) -> Rc<Input> {
    let order: Vec<usize> = (0..n).rev().collect();
    Input::new("backward", n, renumbered(&in_turn(n), &order).to_bytes())
}

/// What the day leaves after so many events at eight sites.
pub fn rehearsed(n: usize) -> Rc<Input> {
    Input::new("rehearsed", n, after_day(n).to_bytes())
}

/// The same with each site's events numbered together, as from eight logs laid end to end.
pub fn by_site(n: usize) -> Rc<Input> {
    let record = after_day(n);
    let mut order: Vec<usize> = (0..n).collect();
    order.sort_by_key(|&event| record.events[event].site);
    Input::new("by site", n, renumbered(&record, &order).to_bytes())
}

fn after_day(n: usize) -> Record {
    let script = &day_script(n).bytes;
    run_script(SITES, script, &mut vec![0; script.len()]).record()
}

/// The record with event `order[k]` as event k.
fn renumbered(record: &Record, order: &[usize]) -> Record {
    let event = |&old: &usize| {
        let mut event = record.events[old].clone();
        let seen = event.visible;
        for (new, &old) in order.iter().enumerate() {
            event.visible[new] = seen[old];
        }
        event
    };
    Record { events: order.iter().map(event).collect(), ..*record }
}

/// The first event leads to the last through all others, one after the other. They are numbered with the ends first, or
/// 10 would be broken at a lower pair: a chain of n - 1 steps explains it.
pub fn chain_ends_first(n: usize) -> Rc<Input> {
    Input::new("chain, ends first", n, ends_first(&layers(n, 1)).to_bytes())
}

/// The first event leads to the last through two layers of all others: many chains of three steps would explain 11.
pub fn ties(n: usize) -> Rc<Input> {
    Input::new("ties", n, layers(n, n / 2 - 1).to_bytes())
}

/// Layers of so many events, and one event alone at each end. An event sees the layer before it and the earlier ones of
/// its own. All overlap in time; the last one is arbitrated first, and the others as they come.
fn layers(n: usize, width: usize) -> Record {
    let layer = |event: usize| event.div_ceil(width);
    let event = |event: usize| {
        let seen: Vec<usize> = (0..event).filter(|&earlier| layer(earlier) + 1 >= layer(event)).collect();
        Event::write(0, 0, event as u32).at(0, 1).sees(&seen)
    };
    let positions: Vec<u16> = (1..n as u16).chain([0]).collect();
    Record::in_order(1, (0..n).map(event).collect()).with_positions(&positions)
}

/// The first event as event 0, the last as event 1, and the others as they come.
fn ends_first(record: &Record) -> Record {
    let last = record.events.len() - 1;
    let order: Vec<usize> = [0, last].into_iter().chain(1..last).collect();
    renumbered(record, &order)
}

/// The dense record, whose last read does not see the write half-way: a read between the two explains 5, and the last
/// read alone 9.
pub fn lapse(n: usize) -> Rc<Input> {
    let mut record = in_turn(n);
    record.events[n - 1].visible[n / 2] = false;
    Input::new("lapse", n, record.to_bytes())
}

/// Every event sees the next, and the last the first: all are on one ring.
pub fn ring(n: usize) -> Rc<Input> {
    let events = (0..n).map(|k| Event::write(0, 0, 1).sees(&[(k + 1) % n]));
    Input::new("ring", n, Record::in_order(1, events.collect()).to_bytes())
}

/// The dense record, where the first event sees the last one too: all are on many rings.
pub fn low_ring(n: usize) -> Rc<Input> {
    let mut record = in_turn(n);
    record.events[0].visible[n - 1] = true;
    Input::new("low ring", n, record.to_bytes())
}

/// The dense record, where the last two events see each other: all others are on no ring, and come first.
pub fn high_ring(n: usize) -> Rc<Input> {
    let mut record = in_turn(n);
    record.events[n - 2].visible[n - 1] = true;
    Input::new("high ring", n, record.to_bytes())
}

/// A put and a get in turn at each site, and no delivery: leaves a record as sparse as `sparse`.
pub fn sparse_script(n: usize) -> Rc<Input> {
    Input::new("sparse", n, script((0..n).map(event)))
}

/// The same with every put delivered to all other sites at once: every event sees all before it.
pub fn dense_script(n: usize) -> Rc<Input> {
    let calls = (0..n).flat_map(|k| {
        let others = (0..SITES).filter(move |&site| is_put(k) && site != k % SITES);
        std::iter::once(event(k)).chain(others.map(move |site| Call::Deliver { site, event: k }))
    });
    Input::new("dense", n, script(calls))
}

/// The first calls of the full day, up to the one that is event n - 1.
pub fn day_script(n: usize) -> Rc<Input> {
    let (mut day, mut store) = (full_day(1, SITES), Store::new(SITES));
    let calls = day.chunks(CALL_BYTES).take_while(|call| {
        let more = store.events() < n;
        store.call(call);
        more
    });
    let length = CALL_BYTES * calls.count();
    day.truncate(length);
    Input::new("day", n, day)
}

/// All 4,096 calls of the day.
pub fn full_day_script() -> Rc<Input> {
    Input::new("full day", MOST_EVENTS, full_day(1, SITES))
}

/// The same, begun with an opening of every object.
pub fn opened_day_script() -> Rc<Input> {
    Input::opened("full day, openings", MOST_EVENTS, given_of_all_objects(), full_day(1, SITES))
}

/// Every object has an opening, and is got at one site after the other: every get finds the opening.
pub fn opened_script(n: usize) -> Rc<Input> {
    let get = |k: usize| Call::Get { site: k % SITES, object: k / SITES % 32 };
    Input::opened("openings", n, given_of_all_objects(), script((0..n).map(get)))
}

/// As many calls of a day of that sort, where one in 16 is a close.
pub fn closes_script() -> Rc<Input> {
    Input::new("day with closes", MOST_EVENTS, day_with_closes(1, SITES))
}

/// As many puts as the store takes, in turn over the sites, and no delivery: every copy is outstanding.
pub fn puts_script() -> Rc<Input> {
    let put = |k: usize| Call::Put { site: k % SITES, object: k / SITES % 32, value: k as u32 };
    Input::new("puts alone", MOST_EVENTS, script((0..MOST_EVENTS).map(put)))
}

fn is_put(k: usize) -> bool {
    (k / SITES).is_multiple_of(2)
}

fn event(k: usize) -> Call {
    let (site, object) = (k % SITES, k / SITES / 2 % 32);
    match is_put(k) {
        true => Call::Put { site, object, value: k as u32 },
        false => Call::Get { site, object },
    }
}

fn script(calls: impl Iterator<Item = Call>) -> Vec<u8> {
    calls.flat_map(Call::to_bytes).collect()
}

#[cfg(test)]
mod tests {
    use super::*;
    use crate::cases::SIZES;
    use second::explain::explanations;
    use second::predicates::{Answer, Judged};
    use second::questions::ask;
    use second::record::u32_at;
    use second::relations::returned_before;

    fn broken(input: &Input) -> Vec<usize> {
        let answers = Judged::new(&ask(&input.bytes).expect("passes")).answers();
        (1..=13).filter(|predicate| answers[predicate - 1] != Answer::Met).collect()
    }

    #[test]
    fn nearly_all_predicates_are_met_so_that_nothing_ends_early() {
        for n in SIZES {
            assert_eq!(broken(&dense(n)), []);
            assert_eq!(broken(&backward(n)), []);
            assert_eq!(broken(&sparse(n)), [2]);
            assert_eq!(broken(&opened(n)), [2, 13]);
            assert_eq!(broken(&clocks(n)), [2]);
            assert_eq!(broken(&pending(n)), [2]);
        }
        for n in [256, 384] {
            assert_eq!(broken(&rehearsed(n)), [2, 3, 4, 13]);
            assert_eq!(broken(&by_site(n)), [2, 3, 4, 13]);
        }
    }

    fn explained(input: &Input, predicate: usize) -> Vec<usize> {
        let explanations = explanations(&input.bytes).expect("passes");
        explanations[predicate - 1].as_ref().expect("broken").events.clone()
    }

    #[test]
    fn breaks_are_explained_by_a_long_chain_the_lowest_of_many_a_middle_event_and_the_last_alone() {
        for n in SIZES {
            let (half, last) = (n / 2, n - 1);
            let all: Vec<usize> = (2..=last).chain([1]).collect();
            assert_eq!(explained(&chain_ends_first(n), 10), all);
            assert_eq!(explained(&ties(n), 11), [1, half, last]);
            assert_eq!(explained(&lapse(n), 5), [half + 1, last]);
            assert_eq!(explained(&lapse(n), 9), [last]);
        }
    }

    /// Pairs of an event and one of another site that starts after its return, further than the difference.
    fn pairs_beyond(difference: u32, events: &[Event]) -> usize {
        let beyond = |a: &Event, b: &Event| a.site != b.site && returned_before(difference, a, b);
        events.iter().map(|a| events.iter().filter(|b| beyond(a, b)).count()).sum()
    }

    #[test]
    fn pairs_of_sites_lie_within_the_difference_and_beyond_it() {
        for n in SIZES {
            let record = ask(&clocks(n).bytes).expect("passes");
            let all = pairs_beyond(0, &record.events);
            let beyond = pairs_beyond(record.difference, &record.events);
            assert!((all / 5..all / 2).contains(&beyond), "{beyond} of {all} pairs beyond");
        }
        // By one clock 3 and 4 would be broken.
        for n in [256, 384] {
            let one_clock = ask(&clocks(n).bytes).expect("passes").apart(0);
            assert_eq!(broken(&Input::new("one clock", n, one_clock.to_bytes())), [2, 3, 4]);
        }
    }

    #[test]
    fn half_of_the_events_never_returned() {
        for n in SIZES {
            let record = ask(&pending(n).bytes).expect("passes");
            assert_eq!(record.events.iter().filter(|event| event.pending()).count(), n / 2);
        }
    }

    #[test]
    fn rings_are_refused_at_their_lowest_event() {
        for (input, place) in [(ring(64), 0), (low_ring(64), 0), (high_ring(64), 62)] {
            let refusal = ask(&input.bytes).expect_err("a ring");
            assert_eq!((refusal.number, refusal.place), (10, place));
        }
    }

    #[test]
    fn scripts_do_all_their_calls_and_come_to_their_events() {
        for input in [sparse_script(64), dense_script(64), dense_script(384), opened_script(384), puts_script()] {
            let mut answers = vec![7; input.bytes.len()];
            let store = run_script(SITES, &input.bytes, &mut answers);
            assert!(answers.chunks(CALL_BYTES).all(|answer| answer[0] == 0));
            assert_eq!(store.events(), input.n);
        }
        for input in [day_script(16), day_script(256), day_script(384), full_day_script(), closes_script()] {
            assert_eq!(run_script(SITES, &input.bytes, &mut vec![0; input.bytes.len()]).events(), input.n);
        }
    }

    #[test]
    fn all_gets_find_their_openings() {
        let input = opened_script(384);
        let openings = second::openings::Openings::from_bytes(input.openings.as_bytes()).expect("openings");
        assert_eq!(openings, of_all_objects());
        let mut store = Store::opened(SITES, openings);
        store.run(&input.bytes, &mut vec![0; input.bytes.len()]);
        let held = |event: &Event| event.value == Some(figure(event.object.into()));
        assert!(store.record().events.iter().all(held));
    }

    #[test]
    fn puts_alone_leave_every_copy_outstanding() {
        let script = &puts_script().bytes;
        assert_eq!(run_script(SITES, script, &mut vec![0; script.len()]).outstanding(), 2_688);
    }

    /// The numbers that the page of results tells of this input.
    #[test]
    fn closes_deliver_and_find_none_lacking() {
        let (script, close) = (&closes_script().bytes, Call::Close.to_bytes());
        let mut answers = vec![0; script.len()];
        run_script(SITES, script, &mut answers);
        let calls = script.chunks(CALL_BYTES).zip(answers.chunks(CALL_BYTES));
        let copies = calls.filter(|(call, _)| **call == close).map(|(_, answer)| u32_at(answer, 4));
        let copies: Vec<u32> = copies.collect();
        let delivering = copies.iter().filter(|&&copies| copies > 0).count();
        assert_eq!((copies.len(), delivering, copies.iter().sum()), (257, 99, 1_047));
    }
}
