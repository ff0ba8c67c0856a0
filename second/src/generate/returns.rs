//! Records at the end of time, where some events return just when others start, or as far before it as clocks may
//! differ, or never.

use super::random::Random;
use super::shapes::{self, make_pending};
use crate::record::{Event, Record};
use std::cmp::Reverse;

const LAST: u64 = u64::MAX;

pub fn record(random: &mut Random, n: usize) -> Record {
    let record = shapes::of_any_edition(random, n);
    let mut record = match random.chance(50) {
        true => at_one_site(random, record),
        false => at_two_sites(random, record),
    };
    if random.chance(60) {
        arbitrate_against_time(&mut record);
    }
    record
}

/// Returns at the later starts, or one below.
fn at_one_site(random: &mut Random, mut record: Record) -> Record {
    let start = random.pick(&[LAST, LAST - 1]);
    let end = start - random.pick(&[0, 1, 1]);
    for event in &mut record.events {
        event.site = 0;
        returns_or_starts(random, event, end, start);
    }
    record
}

/// With the largest difference: sums at the largest start, one off, or the largest of all.
fn at_two_sites(random: &mut Random, mut record: Record) -> Record {
    let difference = u64::from(u32::MAX);
    let end = LAST - random.pick(&[0, difference - 1, difference, difference + 1]);
    for event in &mut record.events {
        event.site = returns_or_starts(random, event, end, LAST) as u8;
    }
    Record { sites: record.sites.max(2), ..record }.apart(u32::MAX)
}

/// Says whether it is one that starts then.
fn returns_or_starts(random: &mut Random, event: &mut Event, end: u64, start: u64) -> bool {
    let starts = random.chance(50);
    (event.start, event.end) = match starts {
        true => (start, Some(random.pick(&[start, LAST]))),
        false => (random.pick(&[0, end]), Some(end)),
    };
    if random.chance(20) {
        make_pending(event);
    }
    starts
}

/// Then 3 and 4 tell whether an event returned before one that starts later.
fn arbitrate_against_time(record: &mut Record) {
    let mut order: Vec<&mut Event> = record.events.iter_mut().collect();
    order.sort_by_key(|event| Reverse(event.start));
    for (position, event) in (0..).zip(order) {
        event.position = position;
    }
}
