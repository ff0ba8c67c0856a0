//! Records to draw.

use second::generate::random::Random;
use second::generate::{chains, openings, shapes};
use second::limits::MOST_EVENTS;
use second::openings::Openings;
use second::record::{Edition, Event, Record};
use second::store::{Call, Store};

/// Records of every shape and of a moderate size, each with a number to tell it by.
pub fn random() -> impl Iterator<Item = (u64, Record)> {
    (0..120).map(|seed| (seed, of_seed(seed)))
}

fn of_seed(seed: u64) -> Record {
    let mut random = Random::new(7_000 + seed);
    match seed % 4 {
        0 => {
            let sites = 1 + random.index(6);
            rehearsed(&mut random, sites, 60)
        }
        1 => {
            let n = random.index(8);
            shapes::record(&mut random, n)
        }
        2 => {
            let n = random.index(45);
            shapes::record(&mut random, n)
        }
        _ => {
            let n = random.index(45);
            shapes::of_any_edition(&mut random, n)
        }
    }
}

/// Records in which an event leads to another, or round to itself, by many steps; some are as large as any.
pub fn chained() -> impl Iterator<Item = (u64, Record)> {
    (0..60).map(|seed| (seed, chains::record(&mut Random::new(seed))))
}

/// The longest chains and rings, and the widest ladders on which every chain is equally short.
pub fn longest() -> Vec<(String, Record)> {
    let fixed = chains::fixed().into_iter().filter(|(name, _)| name.ends_with("-falling"));
    fixed.map(|(name, bytes)| (name, Record::from_bytes(&bytes))).collect()
}

/// What a store leaves after random calls, begun with random openings.
pub fn rehearsed(random: &mut Random, sites: usize, calls: usize) -> Record {
    let mut script = Vec::new();
    for _ in 0..calls {
        let (site, object) = (random.index(sites), random.index(3));
        let call = match random.below(3) {
            0 => Call::Put { site, object, value: random.below(1_000) as u32 },
            1 => Call::Get { site, object },
            _ => Call::Deliver { site, event: random.index(calls / 2) },
        };
        script.extend(call.to_bytes());
    }
    let mut store = Store::opened(sites, openings::openings(random));
    store.run(&script, &mut vec![0; script.len()]);
    store.record()
}

/// The largest records: one site and eight, each event sees a part of those before it.
pub fn large() -> Vec<Record> {
    let of_sites = |sites: u8| {
        let mut random = Random::new(sites.into());
        let mut event = |number: u64| {
            let event = Event::write(random.below(sites.into()) as u8, 0, number as u32).at(3 * number, 3 * number + 1);
            let seen: Vec<usize> = (0..number as usize).filter(|_| random.chance(20)).collect();
            event.sees(&seen)
        };
        Record::in_order(sites, (0..MOST_EVENTS as u64).map(&mut event).collect())
    };
    vec![of_sites(1), of_sites(8)]
}

/// A write and a later read of one site.
pub fn write_then_read(sees: bool) -> Record {
    let read = Event::read(0, 0, sees.then_some(7)).at(2, 3);
    let read = if sees { read.sees(&[0]) } else { read };
    Record::in_order(1, vec![Event::write(0, 0, 7).at(0, 1), read])
}

/// `records/long-way.gcr`. Site 1 has read the figure of event 0 and writes a note of it, which site 2 reads before it
/// reads the figure, in event 3, and finds none. The way 0, 1, 4, 5, 6, 3 begins with a lower event and is longer.
pub fn long_way() -> Record {
    let events = vec![
        Event::write(0, 5, 100).at(0, 1),
        Event::write(0, 7, 1).at(2, 3).sees(&[0]),
        Event::read(1, 5, Some(100)).at(4, 5).sees(&[0]),
        Event::read(2, 5, None).at(12, 13),
        Event::read(1, 7, Some(1)).at(6, 7).sees(&[1]),
        Event::write(1, 6, 2).at(8, 9),
        Event::read(2, 6, Some(2)).at(10, 11).sees(&[5]),
    ];
    Record::in_order(3, events).with_positions(&[0, 1, 2, 6, 3, 4, 5]).apart(0)
}

/// `records/busy-day.gcr`: a day of 256 events at eight sites, as a store leaves it, but for one read that has lost sight of
/// a write which an earlier read of its site saw, and holds what the object had before that. It is of the edition that
/// stores left when it was made.
pub fn busy_day() -> Record {
    let mut random = Random::new(5);
    let openings = (0..6).fold(Openings::none(), |openings, object| openings.with(2 * object, 10 * object as u32));
    let mut store = Store::opened(8, openings);
    while store.events() < 256 {
        let (site, object) = (random.index(8), random.index(12));
        let value = 100 + random.below(900) as u32;
        let call = if random.chance(40) { Call::Put { site, object, value } } else { Call::Get { site, object } };
        store.call(&call.to_bytes());
        for _ in 0..8 {
            let (site, event) = (random.index(8), random.index(store.events()));
            store.call(&Call::Deliver { site, event }.to_bytes());
        }
    }
    let mut record = store.record().in_edition(Edition::GCR2);
    let (read, write) = stale(&record).expect("a day has reads of one site on one object");
    record.events[read].visible[write] = false;
    let opening = record.openings.of(record.events[read].object.into());
    record.events[read].value = last_seen(&record, read).map_or(opening, |write| record.events[write].value);
    record
}

/// The write on its object that is the last in arbitration of those that a read sees.
fn last_seen(record: &Record, read: usize) -> Option<usize> {
    let is_on_it =
        |write: &usize| record.events[*write].is_write() && record.events[*write].object == record.events[read].object;
    let seen = (0..record.events.len()).filter(|&write| record.events[read].visible[write]).filter(is_on_it);
    seen.max_by_key(|&write| record.events[write].position)
}

/// A read in the second half of the day, and the last write on its object that it sees, of another site; an earlier read of
/// its site sees that write too.
fn stale(record: &Record) -> Option<(usize, usize)> {
    let sees = |event: usize, write: usize| record.events[event].visible[write];
    let is_before = |one: usize, other: usize| {
        let (one, other) = (&record.events[one], &record.events[other]);
        one.is_read() && one.site == other.site && one.end.is_some_and(|end| end < other.start)
    };
    let reads = (record.events.len() / 2..record.events.len()).filter(|&read| record.events[read].is_read());
    let with_last = reads.filter_map(|read| Some((read, last_seen(record, read)?)));
    let mut foreign = with_last.filter(|&(read, write)| record.events[read].site != record.events[write].site);
    foreign.find(|&(read, write)| (0..read).any(|one| is_before(one, read) && sees(one, write)))
}

/// The records that ship, but for that of a busy day.
pub fn shipped() -> Vec<Record> {
    let listing = include_bytes!("../../../../records/listing.gcr");
    let stale_read = include_bytes!("../../../../records/stale-read.gcr");
    let stale_value = include_bytes!("../../../../records/stale-value.gcr");
    let empty = include_bytes!("../../../../records/empty-one-site.gcr");
    let opening = include_bytes!("../../../../records/opening.gcr");
    let stale_opening = include_bytes!("../../../../records/stale-opening.gcr");
    let clocks = include_bytes!("../../../../records/clocks.gcr");
    let early_read = include_bytes!("../../../../records/early-read.gcr");
    let never_returned = include_bytes!("../../../../records/never-returned.gcr");
    let long_way = include_bytes!("../../../../records/long-way.gcr");
    let all =
        [&listing[..], stale_read, stale_value, empty, opening, stale_opening, clocks, early_read, never_returned];
    let all = all.into_iter().chain([&long_way[..]]);
    let separating = second::samples::separating().map(|sample| Record::from_bytes(&sample.bytes));
    all.map(Record::from_bytes).chain(separating).collect()
}
