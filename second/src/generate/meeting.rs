//! Records made to meet given predicates, with as little else as chance gives.

use super::random::Random;
use super::shapes::{hold_right_value, make_pending, site_count};
use super::{clocks, openings};
use crate::limits::MOST_EVENTS;
use crate::record::{Event, Record};
use crate::relations::returned_before;

/// A record that meets each predicate of the list, which is a model's or lone.
pub fn record(random: &mut Random, n: usize, predicates: &[u32]) -> Record {
    let sites = site_count(random);
    let record = Record::in_order(sites, events(random, n, sites));
    let mut record = openings::of_any_edition(random, record);
    sparse_visibility(random, &mut record);
    // The single orders stand first in a model's list and take away as well as
    // add, so they come last here.
    for &predicate in predicates.iter().rev() {
        add_what_is_asked(&mut record, predicate);
    }
    for event in 0..n {
        hold_right_value(&mut record, event);
    }
    move_clocks(random, &mut record);
    if random.chance(60) {
        record = renumbered(random, &record);
    }
    record
}

/// Neither moves one event of a site against another, nor puts an order between sites that was not there.
fn move_clocks(random: &mut Random, record: &mut Record) {
    if record.edition.headed && random.chance(70) {
        clocks::set_apart(random, record);
    }
    if random.chance(20) {
        clocks::move_to_the_end(record);
    }
}

/// Starts never fall, so a return before a start always agrees with ar.
fn events(random: &mut Random, n: usize, sites: u8) -> Vec<Event> {
    let (gap, length) = (1 + random.below(4), 1 + random.below(5));
    let objects = &random.pick(&[[0, 1, 2], [0, 31, 32], [31, 255, 0]])[..1 + random.index(3)];
    let pending = random.pick(&[0, 0, 25]);
    let mut start = 0;
    let one = |_| {
        start += random.below(gap);
        let site = random.below(sites as u64) as u8;
        let object = random.pick(objects);
        let event = match random.chance(50) {
            true => Event::write(site, object, random.below(5) as u32),
            false => Event::read(site, object, None),
        };
        let mut event = event.at(start, start + random.below(length));
        if random.chance(pending) {
            make_pending(&mut event);
        }
        event
    };
    (0..n).map(one).collect()
}

fn sparse_visibility(random: &mut Random, record: &mut Record) {
    let density = random.pick(&[0, 10, 40, 80, 100]);
    for b in 0..record.events.len() {
        for a in 0..b {
            record.events[b].visible[a] = random.chance(density);
        }
    }
}

/// Adds or removes visible events along the numbering until the predicate holds.
fn add_what_is_asked(record: &mut Record, predicate: u32) {
    for c in 0..record.events.len() {
        for b in 0..c {
            match predicate {
                2 => single_order(record, b, c),
                13 if record.events[b].object == record.events[c].object => single_order(record, b, c),
                _ => inclusion(record, predicate, b, c),
            }
        }
    }
}

/// Pending events are left out for the whole record, others seen by all later ones.
fn single_order(record: &mut Record, b: usize, c: usize) {
    record.events[c].visible[b] = !record.events[b].pending();
}

fn inclusion(record: &mut Record, predicate: u32, b: usize, c: usize) {
    let (first, later) = (&record.events[b], &record.events[c]);
    let so = first.site == later.site && returned_before(0, first, later);
    let direct = match predicate {
        6 => so && first.is_write() && later.is_read(),
        9 | 10 => so,
        12 => so && first.object == later.object,
        _ => false,
    };
    let passed_on = match predicate {
        5 => so && first.is_read() && later.is_read(),
        10 => so || later.visible[b],
        _ => false,
    };
    record.events[c].visible[b] |= direct;
    if passed_on {
        see_what_it_sees(record, b, c);
    }
}

fn see_what_it_sees(record: &mut Record, b: usize, c: usize) {
    for a in 0..MOST_EVENTS {
        let seen = record.events[b].visible[a];
        record.events[c].visible[a] |= seen;
    }
}

/// The same record with its events numbered at random.
pub fn renumbered(random: &mut Random, record: &Record) -> Record {
    renumbered_by(record, &random.order(record.events.len()))
}

/// The same record with its events in this order.
pub fn renumbered_by(record: &Record, old_of: &[usize]) -> Record {
    let events = old_of.iter().map(|&old| {
        let mut event = record.events[old].clone();
        event.visible = [false; MOST_EVENTS];
        for (new, &other) in old_of.iter().enumerate() {
            event.visible[new] = record.events[old].visible[other];
        }
        event
    });
    Record { events: events.collect(), ..*record }
}
