//! Records that meet a model and little of what it does not cover: regular or sequential by one order, processor or
//! per-object sequential by one for each object, and against the times as far as the model lets them be.

use super::meeting::renumbered;
use super::openings;
use super::random::Random;
use super::shapes::{hold_right_value, make_pending};
use crate::record::{Event, Record};
use crate::relations::returned_before;

/// What a model asks of two events of which the first returned before the other; the last says whether that one sees it.
type Asked = fn(&Event, &Event, bool) -> bool;

const REGULAR: Asked = |first, later, _| first.is_read() || first.position < later.position;
const PRAM: Asked = |first, later, seen| first.site != later.site || seen;
const SLOW_MEMORY: Asked = |first, later, seen| first.object != later.object || PRAM(first, later, seen);

/// The models that can be asked for.
pub const MODELS: [u32; 4] = [2, 3, 6, 7];

pub fn record(random: &mut Random, n: usize, model: u32) -> Record {
    match model {
        2 => by_one_order(random, n, REGULAR),
        3 => by_one_order(random, n, PRAM),
        6 => by_an_order_for_each_object(random, n, PRAM),
        7 => by_an_order_for_each_object(random, n, SLOW_MEMORY),
        _ => unreachable!("no record is made for model {model}"),
    }
}

fn by_one_order(random: &mut Random, n: usize, asked: Asked) -> Record {
    let mut record = events(random, n, false);
    see(&mut record, |_, _| true);
    finished(random, record, asked)
}

fn by_an_order_for_each_object(random: &mut Random, n: usize, asked: Asked) -> Record {
    let mut record = events(random, n, true);
    one_object_first(random, &mut record);
    let (own_site, density) = (random.pick(&[40, 100, 100]), random.pick(&[25, 40]));
    see(&mut record, |first, later| {
        first.object == later.object || random.chance(if first.site == later.site { own_site } else { density })
    });
    finished(random, record, asked)
}

fn finished(random: &mut Random, mut record: Record, asked: Asked) -> Record {
    untie(&mut record, asked);
    (0..record.events.len()).for_each(|event| hold_right_value(&mut record, event));
    renumbered(random, &record)
}

/// At times in turn or at any; the positions go by the numbers.
fn events(random: &mut Random, n: usize, in_turn: bool) -> Record {
    let sites = 1 + random.below(3);
    let one = |k: usize| {
        let (site, object) = (random.below(sites) as u8, random.below(2) as u8);
        let event = match random.chance(50) {
            true => Event::write(site, object, random.below(5) as u32),
            false => Event::read(site, object, None),
        };
        let start = if in_turn { 2 * k as u64 } else { random.below(2 * n as u64) };
        let mut event = event.at(start, start + random.below(2));
        if random.chance(5) {
            make_pending(&mut event);
        }
        event
    };
    let record = Record::in_order(sites as u8, (0..n).map(one).collect());
    openings::of_any_edition(random, record)
}

/// Positions that go by the numbers for each object alone.
fn one_object_first(random: &mut Random, record: &mut Record) {
    let first = random.below(2) as u8;
    let mut order: Vec<&mut Event> = record.events.iter_mut().collect();
    order.sort_by_key(|event| event.object != first);
    for (position, event) in (0..).zip(order) {
        event.position = position;
    }
}

/// Lets every event see some of those with lower numbers, none of them pending.
fn see(record: &mut Record, mut sees: impl FnMut(&Event, &Event) -> bool) {
    for b in 0..record.events.len() {
        for a in 0..b {
            let first = &record.events[a];
            record.events[b].visible[a] = !first.pending() && sees(first, &record.events[b]);
        }
    }
}

/// Where the model asks for what is not so, the first event returns only when the other starts.
fn untie(record: &mut Record, asked: Asked) {
    let difference = record.difference;
    for a in 0..record.events.len() {
        for b in 0..record.events.len() {
            let (first, later) = (&record.events[a], &record.events[b]);
            if returned_before(difference, first, later) && !asked(first, later, later.visible[a]) {
                record.events[a].end = Some(later.start);
            }
        }
    }
}
