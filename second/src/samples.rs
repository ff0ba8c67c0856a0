//! Named sample inputs, always the same.

use crate::generate::harvest_day;
use crate::limits::MOST_BYTES;
use crate::openings::{Openings, OPENINGS_BYTES};
use crate::record::*;
use crate::store::{run_script, Call, Store};
use std::fs;
use std::path::Path;

pub struct Sample {
    pub name: String,
    pub bytes: Vec<u8>,
}

pub fn samples() -> Vec<Sample> {
    let mut all = vec![Sample::new("empty-one-site", Record::in_order(1, vec![]).to_bytes())];
    for n in [1, 7, 8, 255, 256, 257, 383, 384] {
        all.push(Sample::new(&format!("in-turn-{n}"), in_turn(n).to_bytes()));
    }
    for n in [0, 1, 6, 7, 12] {
        let record = in_turn(n).in_edition(Edition::GCR3);
        all.push(Sample::new(&format!("gcr3-in-turn-{n}"), record.to_bytes()));
    }
    all.extend(refused());
    all.extend(refused_gcr3());
    all.push(Sample::new("stale-read", stale_read().to_bytes()));
    all.push(Sample::new("stale-value", stale_value().to_bytes()));
    all.push(Sample::new("openings", openings().to_bytes()));
    all.push(Sample::new("stale-opening", stale_opening().to_bytes()));
    all.push(Sample::new("clocks", clocks(40).to_bytes()));
    all.push(Sample::new("early-read", clocks(39).to_bytes()));
    let (script, no_openings) = (listing_script(), vec![0; OPENINGS_BYTES]);
    all.push(Sample::new("listing", run_script(2, &script, &mut vec![0; script.len()]).record().to_bytes()));
    all.push(Sample { name: "listing.script".to_string(), bytes: [vec![2], no_openings, script].concat() });
    all.extend(harvest_day());
    all
}

/// The day's script as `rehearse` reads it, and what it leaves.
fn harvest_day() -> [Sample; 2] {
    let (openings, script) = (harvest_day::openings(), script_of(harvest_day::calls()));
    let mut store = Store::opened(harvest_day::SITES, openings);
    store.run(&script, &mut vec![0; script.len()]);
    let bytes = [vec![harvest_day::SITES as u8], openings.to_bytes().to_vec(), script].concat();
    [Sample { name: "harvest-day.script".to_string(), bytes }, Sample::new("harvest-day", store.record().to_bytes())]
}

fn script_of(calls: impl IntoIterator<Item = Call>) -> Vec<u8> {
    calls.into_iter().flat_map(Call::to_bytes).collect()
}

/// The samples that are records, and the files that keep models apart.
pub fn records() -> impl Iterator<Item = Sample> {
    samples().into_iter().filter(|sample| sample.name.ends_with(".gcr")).chain(separating())
}

/// The eight records of the repository by which `lattice` keeps models apart, record 1 first.
pub fn separating() -> impl Iterator<Item = Sample> {
    let folder = Path::new(env!("CARGO_MANIFEST_DIR")).join("../records");
    (1..=8).map(move |k| {
        let name = format!("separating-{k}.gcr");
        let bytes = fs::read(folder.join(&name)).unwrap_or_else(|error| panic!("records/{name}: {error}"));
        Sample { name, bytes }
    })
}

impl Sample {
    fn new(name: &str, bytes: Vec<u8>) -> Sample {
        Sample { name: format!("{name}.gcr"), bytes }
    }
}

/// One site, a write and a read in turn, each event seeing all before it:
/// every predicate is met.
pub fn in_turn(n: usize) -> Record {
    let event = |k: usize| {
        let start = 2 * k as u64;
        let event = match k % 2 {
            0 => Event::write(0, 0, k as u32),
            _ => Event::read(0, 0, Some(k as u32 - 1)),
        };
        event.at(start, start + 1).sees(&(0..k).collect::<Vec<_>>())
    };
    Record::in_order(1, (0..n).map(event).collect())
}

/// The second read of a site has lost sight of the write that its first saw.
fn stale_read() -> Record {
    let events = vec![
        Event::write(0, 0, 7).at(0, 1),
        Event::read(1, 0, Some(7)).at(2, 3).sees(&[0]),
        Event::read(1, 0, None).at(4, 5).sees(&[1]),
    ];
    Record::in_order(2, events)
}

/// The read sees both writes and holds the older one's value.
fn stale_value() -> Record {
    let events = vec![
        Event::write(0, 0, 7).at(0, 1),
        Event::write(0, 0, 8).at(2, 3).sees(&[0]),
        Event::read(0, 0, Some(7)).at(4, 5).sees(&[0, 1]),
    ];
    Record::in_order(1, events)
}

/// Reads that hold what their objects opened with: a figure, 0, none, and none from object 32 on. The last one sees a
/// write, and holds its value.
fn openings() -> Record {
    let events = vec![
        Event::read(0, 0, Some(40)).at(0, 1),
        Event::read(0, 31, Some(0)).at(2, 3).sees(&[0]),
        Event::read(0, 1, None).at(4, 5).sees(&[0, 1]),
        Event::read(0, 32, None).at(6, 7).sees(&[0, 1, 2]),
        Event::write(0, 0, 41).at(8, 9).sees(&[0, 1, 2, 3]),
        Event::read(0, 0, Some(41)).at(10, 11).sees(&[0, 1, 2, 3, 4]),
    ];
    Record::in_order(1, events).opened(Openings::none().with(0, 40).with(31, 0))
}

/// The second read sees the write and still holds the opening; the third holds none where there is one.
fn stale_opening() -> Record {
    let events = vec![
        Event::write(0, 0, 41).at(0, 1),
        Event::read(0, 0, Some(40)).at(2, 3).sees(&[0]),
        Event::read(0, 1, None).at(4, 5).sees(&[0, 1]),
    ];
    Record::in_order(1, events).opened(Openings::none().with(0, 40).with(1, 40))
}

/// The first read starts 40 ms after another site's write returned, and stands before it in arbitration. That is right
/// where the sites' clocks may differ by 40 ms: every predicate is met. By less, 3 and 4 are broken.
fn clocks(difference: u32) -> Record {
    let events = vec![
        Event::write(0, 0, 7).at(100, 110).sees(&[1]),
        Event::read(1, 0, None).at(150, 155),
        Event::read(1, 0, Some(7)).at(160, 165).sees(&[0, 1]),
    ];
    Record::in_order(2, events).with_positions(&[1, 0, 2]).apart(difference)
}

/// The paper's script of two sites.
pub fn listing_script() -> Vec<u8> {
    let calls = [
        Call::Put { site: 0, object: 5, value: 100 },
        Call::Put { site: 1, object: 5, value: 200 },
        Call::Deliver { site: 1, event: 0 },
        Call::Get { site: 1, object: 5 },
        Call::Get { site: 0, object: 5 },
        Call::Deliver { site: 0, event: 1 },
        Call::Get { site: 0, object: 5 },
    ];
    script_of(calls)
}

/// Each refusal, at a low and a high place where it has more than one.
fn refused() -> Vec<Sample> {
    let full = |name, change: fn(&mut Vec<u8>)| changed(name, 256, change);
    vec![
        Sample::new("refused-3-short", vec![0; 511]),
        Sample::new("refused-3-long", vec![0; MOST_BYTES + BLOCK_BYTES]),
        unsealed("refused-4-low", 0),
        unsealed("refused-4-high", 37),
        full("refused-5-n-257", |bytes| bytes[4] = 1),
        full("refused-5-sites-9", |bytes| bytes[6] = 9),
        full("refused-5-last-byte", |bytes| bytes[507] = 1),
        full("refused-5-letters-4", |bytes| bytes[3] = b'4'),
        full("refused-5-gcr2-n-257", |bytes| (bytes[3], bytes[4]) = (b'2', 1)),
        full("refused-6-as-gcr3", |bytes| bytes[3] = b'3'),
        full("refused-6-beyond-19456", |bytes| bytes.resize(39 * BLOCK_BYTES, 0)),
        full("refused-6-of-65-blocks", |bytes| bytes.resize(MOST_BYTES, 0)),
        full("refused-5-gcr1-difference", |bytes| bytes[8] = 1),
        full("refused-5-gcr1-openings", |bytes| bytes[12] = 1),
        full("refused-5-gcr2-byte-7", |bytes| (bytes[3], bytes[7]) = (b'2', 1)),
        full("refused-5-gcr2-clear-bit-0", |bytes| (bytes[3], bytes[16]) = (b'2', 1)),
        full("refused-5-gcr2-clear-bit-31", |bytes| (bytes[3], bytes[15], bytes[143]) = (b'2', 0x7f, 1)),
        full("refused-5-gcr2-byte-144", |bytes| (bytes[3], bytes[144]) = (b'2', 1)),
        full("refused-6-too-few", |bytes| bytes.truncate(37 * BLOCK_BYTES)),
        changed("refused-6-too-many", 7, |bytes| bytes.resize(3 * BLOCK_BYTES, 0)),
        full("refused-7-low", |bytes| slot_mut(bytes, 0)[0] = 2),
        full("refused-7-high", |bytes| slot_mut(bytes, 255)[15] = 1),
        full("refused-7-tail", |bytes| bytes[37 * BLOCK_BYTES + 507] = 1),
        full("refused-8-low", |bytes| slot_mut(bytes, 0)[11] = 1),
        full("refused-8-high", |bytes| slot_mut(bytes, 255)[10] = 254),
        full("refused-9-low", |bytes| slot_mut(bytes, 0)[32] = 1),
        changed("refused-9-high", 255, |bytes| slot_mut(bytes, 254)[63] |= 0x80),
        full("refused-10-low", |bytes| slot_mut(bytes, 0)[32] = 2),
        full("refused-10-high", |bytes| slot_mut(bytes, 254)[63] |= 0x80),
    ]
}

/// The same of the last edition, with as many events as there can be.
fn refused_gcr3() -> Vec<Sample> {
    let full = |name, change: fn(&mut Vec<u8>)| changed(name, 384, change);
    vec![
        full("refused-3-gcr3-long", |bytes| bytes.resize(66 * BLOCK_BYTES, 0)),
        unsealed_at("refused-4-gcr3-high", 384, 64),
        full("refused-5-gcr3-n-385", |bytes| bytes[4] = 129),
        full("refused-5-gcr3-byte-7", |bytes| bytes[7] = 1),
        full("refused-5-gcr3-clear-bit-31", |bytes| (bytes[15], bytes[143]) = (0x7f, 1)),
        full("refused-5-gcr3-byte-144", |bytes| bytes[144] = 1),
        full("refused-5-gcr3-as-gcr2", |bytes| bytes[3] = b'2'),
        full("refused-6-gcr3-too-few", |bytes| bytes.truncate(64 * BLOCK_BYTES)),
        changed("refused-6-gcr3-too-many", 378, |bytes| bytes.resize(65 * BLOCK_BYTES, 0)),
        full("refused-7-gcr3-high", |bytes| slot_mut(bytes, 383)[15] = 1),
        full("refused-7-gcr3-tail-480", |bytes| bytes[BLOCK_BYTES + 480] = 1),
        full("refused-7-gcr3-tail-507", |bytes| bytes[64 * BLOCK_BYTES + 507] = 1),
        full("refused-8-gcr3-high", |bytes| slot_mut(bytes, 383)[10] = 126),
        full("refused-8-gcr3-n", |bytes| slot_mut(bytes, 300)[10..12].copy_from_slice(&[128, 1])),
        changed("refused-9-gcr3-high", 383, |bytes| slot_mut(bytes, 382)[79] |= 0x80),
        full("refused-9-gcr3-itself", |bytes| slot_mut(bytes, 383)[79] |= 0x80),
        full("refused-10-gcr3-high", |bytes| slot_mut(bytes, 382)[79] |= 0x80),
        full("refused-10-gcr3-low", |bytes| slot_mut(bytes, 0)[79] |= 0x80),
    ]
}

/// A record of n events with some bytes changed, and sealed again.
fn changed(name: &str, n: usize, change: impl Fn(&mut Vec<u8>)) -> Sample {
    let mut bytes = in_turn(n).to_bytes();
    change(&mut bytes);
    seal(&mut bytes);
    Sample::new(name, bytes)
}

fn unsealed(name: &str, block: usize) -> Sample {
    unsealed_at(name, 256, block)
}

fn unsealed_at(name: &str, n: usize, block: usize) -> Sample {
    let mut bytes = in_turn(n).to_bytes();
    bytes[block * BLOCK_BYTES + 300] ^= 1;
    Sample::new(name, bytes)
}
