//! One change to a record's events, to step over a predicate's edge.

use super::random::Random;
use super::shapes::make_pending;
use super::{clocks, openings};
use crate::openings::Openings;
use crate::record::{Event, Kind, Record};

pub fn one_field(random: &mut Random, record: &mut Record) {
    match random.below(17) {
        0..=2 => visible_bit(random, record),
        3..=4 => swap_positions(random, record),
        5..=6 => read_value(random, record),
        7..=8 => *record = in_another_edition(random, record),
        9..=11 => *record = record.clone().apart(changed_difference(random, record)),
        _ => {
            let others = record.clone();
            let event = &mut record.events[random.index(others.events.len())];
            field(random, event, &others);
        }
    }
}

fn visible_bit(random: &mut Random, record: &mut Record) {
    let n = record.events.len();
    let (a, b) = (random.index(n), random.index(n));
    // Mostly along arbitration: against it there is soon a ring.
    let along = record.events[a].position < record.events[b].position;
    let (a, b) = if along || random.chance(15) { (a, b) } else { (b, a) };
    record.events[b].visible[a] ^= true;
}

/// RVal stands last in every model, so its edge needs a share of its own.
fn read_value(random: &mut Random, record: &mut Record) {
    let held = |event: &&mut Event| event.is_read() && !event.pending();
    let openings = record.openings;
    let mut reads: Vec<&mut Event> = record.events.iter_mut().filter(held).collect();
    if !reads.is_empty() {
        let at = random.index(reads.len());
        let opening = openings.of(reads[at].object as usize);
        let of_opening = opening != reads[at].value && random.chance(50);
        reads[at].value = if of_opening { opening } else { value(random, reads[at]) };
    }
}

/// One opening more or less, or another figure; now and then another edition.
fn in_another_edition(random: &mut Random, record: &Record) -> Record {
    let same = record.clone();
    match random.chance(20) {
        true => same.in_edition(openings::edition(random, record.events.len())),
        false => same.opened(changed_opening(random, record.openings)),
    }
}

/// Mostly by one, which a record made to meet a predicate may just not bear.
fn changed_difference(random: &mut Random, record: &Record) -> u32 {
    let difference = record.difference;
    let other = clocks::difference(random, &record.events);
    let less = difference.saturating_sub(1);
    random.pick(&[less, less, less, difference.saturating_add(1), 0, other])
}

fn changed_opening(random: &mut Random, openings: Openings) -> Openings {
    let object = random.pick(&[0, 0, 1, 2, 31, 31]);
    match openings.of(object) {
        None => openings.with(object, random.below(2) as u32),
        Some(_) if random.chance(50) => openings.without(object),
        Some(figure) => openings.with(object, figure ^ 1 << random.pick(&[0, 8, 31])),
    }
}

fn swap_positions(random: &mut Random, record: &mut Record) {
    let n = record.events.len();
    let (a, b) = (random.index(n), random.index(n));
    let (at_a, at_b) = (record.events[a].position, record.events[b].position);
    record.events[a].position = at_b;
    record.events[b].position = at_a;
}

fn field(random: &mut Random, event: &mut Event, others: &Record) {
    match random.below(8) {
        0 => event.site = random.below(others.sites as u64) as u8,
        1 => event.object = random.pick(&[0, 1, 2, 31, 32, 255]),
        2 => event.value = value(random, event),
        3 => turn_kind(event),
        4 => turn_state(event),
        5 => event.end = Some(boundary(random, others).max(event.start)),
        6 => event.start = not_after(event.end, boundary(random, others)),
        _ => nudge(random, event),
    }
}

fn value(random: &mut Random, event: &Event) -> Option<u32> {
    match event.value {
        Some(0) if event.is_read() => None,
        Some(_) if event.is_read() && random.chance(30) => None,
        None => Some(random.below(2) as u32),
        Some(value) => Some(value ^ 1 << random.pick(&[0, 1, 31])),
    }
}

fn turn_kind(event: &mut Event) {
    event.kind = match event.kind {
        Kind::Read => Kind::Write,
        Kind::Write => Kind::Read,
    };
    if event.is_write() && event.value.is_none() {
        event.value = Some(0);
    }
}

fn turn_state(event: &mut Event) {
    if event.pending() {
        event.end = Some(event.start);
    } else {
        make_pending(event);
    }
}

/// A time, or the return where that comes sooner.
fn not_after(end: Option<u64>, time: u64) -> u64 {
    end.map_or(time, |end| time.min(end))
}

/// A time on, just before or just after some event's start or return, or as far from it as clocks may differ.
fn boundary(random: &mut Random, others: &Record) -> u64 {
    let other = &others.events[random.index(others.events.len())];
    let difference = random.pick(&[0, others.difference as u64]);
    let time = match (random.chance(50), other.end) {
        (false, Some(end)) => end.saturating_add(difference),
        _ => other.start.saturating_sub(difference),
    };
    random.pick(&[time, time.saturating_sub(1), time.saturating_add(1)])
}

fn nudge(random: &mut Random, event: &mut Event) {
    match event.end {
        Some(end) if !random.chance(50) => event.end = Some(end.saturating_add(1)),
        _ => event.start = event.start.saturating_sub(1),
    }
}
