//! Records in which an event leads to another, or round to itself, by steps that can't be left out: layers of events, each
//! a step after the layer before it.

use super::meeting::renumbered_by;
use super::openings;
use super::random::Random;
use super::shapes::{hold_right_value, make_pending};
use super::sweeps::Named;
use crate::limits::{MOST_EVENTS, MOST_SITES};
use crate::record::{Edition, Event, Record};
use std::ops::Range;

/// How many events each layer has, and how one leads to the next.
struct Plan {
    widths: Vec<usize>,
    /// The last layer leads to the first.
    ring: bool,
    /// The layers that lead on by so, each at a site of its own; the others do by vis.
    by_so: Vec<usize>,
    /// In how many of a hundred pairs of two such layers, or of one layer, the later event sees the other.
    density: u64,
    within: u64,
}

impl Plan {
    /// Where the events of a layer stand.
    fn places(&self, layer: usize) -> Range<usize> {
        let start = self.widths[..layer].iter().sum();
        start..start + self.widths[layer]
    }

    /// The layers that lead on, each with the one that it leads to.
    fn gaps(&self) -> impl Iterator<Item = (usize, usize)> {
        let count = self.widths.len();
        (0..count - usize::from(!self.ring)).map(move |layer| (layer, (layer + 1) % count))
    }

    /// Events that overlap in time at site 0, but for the layers that lead on by so.
    fn record(&self, random: &mut Random) -> Record {
        let events = (0..self.widths.iter().sum()).map(|_| event(random)).collect();
        let mut record = Record::in_order(MOST_SITES as u8, events);
        for (from, to) in self.gaps() {
            match self.by_so.iter().position(|&layer| layer == from) {
                Some(at) => self.lead_by_so(&mut record, at as u8 + 1, from, to),
                None => self.lead_by_vis(random, &mut record, from, to),
            }
        }
        for layer in 0..self.widths.len() {
            self.see_within(random, &mut record, layer);
        }
        record
    }

    fn lead_by_so(&self, record: &mut Record, site: u8, from: usize, to: usize) {
        for place in self.places(from) {
            let event = &mut record.events[place];
            (event.site, event.start, event.end) = (site, 0, Some(3));
        }
        for place in self.places(to) {
            let event = &mut record.events[place];
            (event.site, event.start, event.end) = (site, 4, Some(9));
        }
    }

    /// Each of the later layer sees one at least.
    fn lead_by_vis(&self, random: &mut Random, record: &mut Record, from: usize, to: usize) {
        for later in self.places(to) {
            let one = self.places(from).start + random.index(self.widths[from]);
            for place in self.places(from) {
                record.events[later].visible[place] = place == one || random.chance(self.density);
            }
        }
    }

    fn see_within(&self, random: &mut Random, record: &mut Record, layer: usize) {
        let places = self.places(layer);
        for later in places.clone() {
            for place in places.start..later {
                record.events[later].visible[place] = random.chance(self.within);
            }
        }
    }
}

fn event(random: &mut Random) -> Event {
    let object = random.below(3) as u8;
    let event = match random.chance(50) {
        true => Event::write(0, object, random.below(5) as u32),
        false => Event::read(0, object, None),
    };
    event.at(0, 9)
}

pub fn record(random: &mut Random) -> Record {
    let plan = plan(random);
    let mut record = plan.record(random);
    never_return(random, &mut record);
    let record = arbitrated(random, record);
    let order = order(random, record.events.len());
    let mut record = openings::of_any_edition(random, renumbered_by(&record, &order));
    (0..record.events.len()).for_each(|event| hold_right_value(&mut record, event));
    record
}

fn plan(random: &mut Random) -> Plan {
    let n = count(random);
    let ring = random.chance(45);
    let widths = widths(random, n, ring);
    let by_so = led_by_so(random, widths.len(), ring);
    let (density, within) = (random.pick(&[0, 40, 100]), random.pick(&[0, 0, 30, 100]));
    Plan { widths, ring, by_so, density, within }
}

/// Now and then as many as there can be in an older edition or in the last one, or one less.
fn count(random: &mut Random) -> usize {
    match random.below(29) {
        0..13 => 3 + random.index(8),
        13..21 => 11 + random.index(50),
        21 => 61 + random.index(194),
        22..25 => random.pick(&[OLDER_MOST - 1, OLDER_MOST, OLDER_MOST]),
        25 => OLDER_MOST + 1 + random.index(MOST_EVENTS - OLDER_MOST - 1),
        26 => MOST_EVENTS - 1,
        _ => MOST_EVENTS,
    }
}

/// An older edition's.
const OLDER_MOST: usize = Edition::GCR2.most_events;

/// The first layer has one event, and so has the last where nothing leads on from it. Of the most events each mostly has
/// one, for a chain through all of them.
fn widths(random: &mut Random, n: usize, ring: bool) -> Vec<usize> {
    let longest = n >= OLDER_MOST - 1 && random.chance(70);
    let most = if longest { 1 } else { random.pick(&[1, 1, 2, 3, 1 + n / 3, n]) };
    let ends = if ring { vec![] } else { vec![1] };
    let mut left = n - 1 - ends.len();
    let mut widths = vec![1];
    while left > 0 {
        let width = 1 + random.index(most.min(left));
        widths.push(width);
        left -= width;
    }
    [widths, ends].concat()
}

/// No two of them next to each other: by so, two steps are one. A ring has at least one, as vis has no ring.
fn led_by_so(random: &mut Random, layers: usize, ring: bool) -> Vec<usize> {
    let most = random.index(MOST_SITES).max(usize::from(ring));
    let mut chosen: Vec<usize> = vec![];
    for layer in random.order(layers) {
        let beside = |&other: &usize| (layer + 1) % layers == other || (other + 1) % layers == layer;
        if chosen.len() < most && !chosen.iter().any(beside) {
            chosen.push(layer);
        }
    }
    chosen
}

/// Now and then some of those that nothing is so after.
fn never_return(random: &mut Random, record: &mut Record) {
    let share = random.pick(&[0, 0, 30]);
    let others = record.events.iter_mut().filter(|event| event.site == 0);
    others.for_each(|event| {
        if random.chance(share) {
            make_pending(event);
        }
    });
}

/// As the events are placed, the last of them first, the first of them last, or at random.
fn arbitrated(random: &mut Random, record: Record) -> Record {
    let n = record.events.len();
    let mut order: Vec<usize> = (0..n).collect();
    match random.below(5) {
        0 => {}
        1..3 => order.rotate_right(1),
        3 => order.rotate_left(1),
        _ => order = random.order(n),
    }
    let mut positions = vec![0; n];
    (0..).zip(order).for_each(|(position, event)| positions[event] = position);
    record.with_positions(&positions)
}

/// Which place has which number: the first and last of them lowest, either way round, so that what is between them comes
/// with no lower pair; or as placed, turned, or at random.
fn order(random: &mut Random, n: usize) -> Vec<usize> {
    let mut order = random.order(n);
    let first_of = |lowest: &[usize], order: &mut Vec<usize>| {
        order.retain(|place| !lowest.contains(place));
        order.splice(0..0, lowest.iter().copied());
    };
    match random.below(10) {
        0..3 => first_of(&[0, n - 1], &mut order),
        3..6 => first_of(&[n - 1, 0], &mut order),
        6 => first_of(&[0], &mut order),
        7 => order = (0..n).collect(),
        8 => order = (0..n).rev().collect(),
        _ => {}
    }
    order
}

/// Chains and rings as long as there can be, rings of two and three, and ladders on which every chain is equally short.
pub fn fixed() -> Vec<Named<Vec<u8>>> {
    let all = |width: usize, n: usize| vec![width; n / width];
    let ends = |inner: Vec<usize>| [vec![1], inner, vec![1]].concat();
    let by_so = || vec![0, 40, 80, 120, 160, 200, 254];
    let later_by_so = || vec![0, 63, 127, 191, 255, 319, 382];
    let plans = [
        ("chain-of-255", ends(all(1, 254)), false, vec![]),
        ("chain-by-so-too", ends(all(1, 254)), false, by_so()),
        ("ring-of-256", all(1, 256), true, vec![255]),
        ("ring-by-so-too", all(1, 256), true, by_so()),
        ("ring-of-2", all(1, 2), true, vec![1]),
        ("ring-of-3", all(1, 3), true, vec![0]),
        ("narrow-ladder", ends(all(2, 254)), false, vec![100]),
        ("wide-ladder", ends(all(50, 250)), false, vec![2]),
        ("ladder-of-two-steps", ends(all(254, 254)), false, vec![0]),
        ("round-ladder", all(4, 256), true, vec![63]),
        ("chain-of-256", ends(all(1, 255)), false, vec![]),
        ("chain-of-383", ends(all(1, 382)), false, vec![]),
        ("longest-chain-by-so-too", ends(all(1, 382)), false, later_by_so()),
        ("ring-of-257", all(1, 257), true, vec![256]),
        ("ring-of-384", all(1, 384), true, vec![383]),
        ("longest-ring-by-so-too", all(1, 384), true, later_by_so()),
        ("longest-narrow-ladder", ends(all(2, 382)), false, vec![100]),
        ("widest-ladder-of-two-steps", ends(all(382, 382)), false, vec![0]),
        ("longest-round-ladder", all(4, 384), true, vec![95]),
    ];
    plans.into_iter().flat_map(|(name, widths, ring, by_so)| numbered(name, widths, ring, by_so)).collect()
}

/// Numbered with both ends lowest, either way round, the others as placed or turned.
fn numbered(name: &str, widths: Vec<usize>, ring: bool, by_so: Vec<usize>) -> Vec<Named<Vec<u8>>> {
    let n: usize = widths.iter().sum();
    let record = Plan { widths, ring, by_so, density: 100, within: 100 }.record(&mut Random::new(0));
    let inner: Vec<usize> = (1..n - 1).collect();
    let turned: Vec<usize> = inner.iter().rev().copied().collect();
    let orders =
        [("rising", vec![0, n - 1], &inner), ("falling", vec![0, n - 1], &turned), ("back", vec![n - 1, 0], &inner)];
    let one = |(sort, lowest, others): (&str, Vec<usize>, &Vec<usize>)| {
        let order = [lowest, others.clone()].concat();
        (format!("{name}-{sort}"), renumbered_by(&arbitrated_back(&record), &order).to_bytes())
    };
    orders.into_iter().map(one).collect()
}

/// The last one first, so that 11 breaks at it.
fn arbitrated_back(record: &Record) -> Record {
    let n = record.events.len() as u16;
    let positions: Vec<u16> = (0..n).map(|place| (place + 1) % n).collect();
    record.clone().with_positions(&positions)
}
