//! Records of every shape that pass the questions, whatever they break.

use super::openings;
use super::random::Random;
use crate::limits::MOST_EVENTS;
use crate::record::{Event, Kind, Record};

const DENSITIES: [u64; 6] = [0, 8, 30, 60, 92, 100];

/// What the events are drawn from, and in how many of a hundred reads a value is put right.
struct Drawn {
    objects: &'static [u8],
    values: &'static [u32],
    right: &'static [u64],
}

const PLAIN: Drawn = Drawn { objects: &[0, 0, 0, 1, 1, 255], values: &[0, 1, 2, u32::MAX], right: &[0, 60, 97, 100] };

/// The last object that can have an opening and the first that cannot are more often among these, and wrong values too.
const BESIDE_OPENINGS: Drawn = Drawn {
    objects: &[0, 0, 0, 0, 1, 31, 31, 31, 32, 32, 255],
    values: &[0, 0, 1, 2, u32::MAX],
    right: &[0, 40, 60, 97, 100],
};

/// Of `GCR1` where it has room for them.
pub fn record(random: &mut Random, n: usize) -> Record {
    let mut record = without_right_values(random, n, &PLAIN);
    values(random, &mut record, &PLAIN, |_, _, _| ());
    record
}

/// Of any edition; other than in `GCR1` there are openings that reads hold or should hold, and clocks that may differ.
pub fn of_any_edition(random: &mut Random, n: usize) -> Record {
    let record = without_right_values(random, n, &BESIDE_OPENINGS);
    let mut record = openings::of_any_edition(random, record);
    values(random, &mut record, &BESIDE_OPENINGS, opening_or_none);
    record
}

fn without_right_values(random: &mut Random, n: usize, drawn: &Drawn) -> Record {
    let sites = site_count(random);
    let mut record = Record::in_order(sites, (0..n).map(|_| event(random, sites, drawn)).collect());
    times(random, &mut record);
    positions(random, &mut record);
    visibility(random, &mut record);
    record
}

pub fn site_count(random: &mut Random) -> u8 {
    if random.chance(80) {
        random.pick(&[1, 2, 2, 3])
    } else {
        random.pick(&[5, 6, 7, 8, 8, 8, 8, 8])
    }
}

fn event(random: &mut Random, sites: u8, drawn: &Drawn) -> Event {
    let site = random.below(sites as u64) as u8;
    let object = random.pick(drawn.objects);
    let value = random.pick(drawn.values);
    if random.chance(50) {
        Event::write(site, object, value)
    } else {
        Event::read(site, object, random.chance(50).then_some(value))
    }
}

/// Start and length of each event; small ranges make ends meet starts.
fn times(random: &mut Random, record: &mut Record) {
    let n = record.events.len() as u64;
    let style = random.below(7);
    let pending = random.pick(&[0, 0, 15, 50]);
    for (k, event) in (0u64..).zip(record.events.iter_mut()) {
        let (start, end) = span(random, style, k, n);
        (event.start, event.end) = (start, Some(end));
        if random.chance(pending) {
            make_pending(event);
        }
    }
}

fn span(random: &mut Random, style: u64, k: u64, n: u64) -> (u64, u64) {
    let from = |start: u64, length: u64| (start, start.saturating_add(length));
    match style {
        0 => from(random.below(6), random.below(4)),
        1 => from(2 * k, 1),
        2 => from(3 * k, random.below(9)),
        3 => from(u64::MAX - random.below(4), random.below(3)),
        4 => from(random.below(3 * n + 1), random.below(n + 1)),
        // Further apart than a difference reaches, or as far.
        5 => from((random.below(4) << 31) + random.below(3), random.below(3)),
        _ => from(2 * (n - k), random.below(3)),
    }
}

pub fn make_pending(event: &mut Event) {
    event.end = None;
    if event.kind == Kind::Read {
        event.value = None;
    }
}

fn positions(random: &mut Random, record: &mut Record) {
    let n = record.events.len();
    let mut order = match random.chance(25) {
        true => random.order(n),
        false => hidden_order(random, record),
    };
    // A nearly sorted arbitration breaks fewer predicates at once.
    if n > 1 && random.chance(40) {
        let at = random.index(n - 1);
        order.swap(at, at + 1);
    }
    for (position, &event) in order.iter().enumerate() {
        record.events[event].position = position as u16;
    }
}

/// An order of the events: as numbered, by start, by position or random.
fn hidden_order(random: &mut Random, record: &Record) -> Vec<usize> {
    let n = record.events.len();
    let mut order: Vec<usize> = (0..n).collect();
    match random.below(4) {
        0 => {}
        1 => order.sort_by_key(|&event| record.events[event].start),
        2 => order.sort_by_key(|&event| record.events[event].position),
        _ => order = random.order(n),
    }
    order
}

/// Visibility along some order, so that there is no ring.
fn visibility(random: &mut Random, record: &mut Record) {
    let order = hidden_order(random, record);
    if random.chance(20) {
        return chain(random, record, &order);
    }
    let density = random.pick(&DENSITIES);
    let own_site = random.pick(&DENSITIES).max(density);
    for (rank, &b) in order.iter().enumerate() {
        for &a in &order[..rank] {
            let same = record.events[a].site == record.events[b].site;
            record.events[b].visible[a] = random.chance(if same { own_site } else { density });
        }
    }
}

/// Each event sees little more than the one before it, so that hb needs many
/// steps where vis has few.
fn chain(random: &mut Random, record: &mut Record, order: &[usize]) {
    for (rank, &b) in order.iter().enumerate() {
        for &a in order[..rank].iter().rev().take(1 + random.index(2)) {
            record.events[b].visible[a] = random.chance(90);
        }
    }
}

/// Mostly right values, so that RVal is often met or breaks late. Something else may be done to the others.
fn values(random: &mut Random, record: &mut Record, drawn: &Drawn, otherwise: fn(&mut Random, &mut Record, usize)) {
    let right = random.pick(drawn.right);
    for event in 0..record.events.len() {
        if random.chance(right) {
            hold_right_value(record, event);
        } else {
            otherwise(random, record, event);
        }
    }
}

/// Now and then a read holds the opening, though a write may be visible, or none, though there may be an opening.
fn opening_or_none(random: &mut Random, record: &mut Record, event: usize) {
    let openings = record.openings;
    let read = &mut record.events[event];
    if random.chance(40) && read.is_read() {
        let opening = openings.of(read.object as usize).filter(|_| !read.pending());
        read.value = opening.filter(|_| random.chance(50));
    }
}

/// Gives a returned read the value of the last visible write of its object, or else the opening.
pub fn hold_right_value(record: &mut Record, event: usize) {
    let read = &record.events[event];
    if read.is_read() && !read.pending() {
        let seen = (0..record.events.len().min(MOST_EVENTS)).filter(|&w| read.visible[w]);
        let writes = seen.map(|w| &record.events[w]).filter(|w| w.is_write() && w.object == read.object);
        let last = writes.max_by_key(|write| write.position);
        let opening = record.openings.of(read.object as usize);
        record.events[event].value = last.map_or(opening, |write| write.value);
    }
}
