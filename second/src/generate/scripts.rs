//! Scripts for the store, with refused calls of every number among them.

use super::openings;
use super::random::Random;
use crate::limits::{MOST_BYTES, MOST_EVENTS};
use crate::openings::{OBJECTS, OPENINGS_BYTES};
use crate::store::{Call, Store, CALL_BYTES, MOST_SCRIPT_BYTES};

/// How a script is mixed, in shares of a hundred calls.
struct Mix {
    calls: usize,
    sites: usize,
    objects: usize,
    puts: u64,
    deliveries: u64,
    refused: u64,
    /// One in so many calls is a close; 0 where none is.
    close_in: u64,
    end: End,
}

/// What comes after a script's calls.
#[derive(Clone, Copy)]
enum End {
    Nothing,
    /// Every copy that is still lacking, by a call of its own.
    Deliveries,
    Close,
}

/// What a rehearsal is called with.
pub struct Rehearsal {
    pub sites: u32,
    pub openings: Vec<u8>,
    pub script: Vec<u8>,
    pub record_bytes: usize,
    pub answer_bytes: usize,
}

impl Rehearsal {
    /// With buffers that are just long enough.
    pub fn plain(sites: u32, openings: Vec<u8>, script: Vec<u8>) -> Rehearsal {
        Rehearsal { sites, openings, record_bytes: MOST_BYTES, answer_bytes: script.len(), script }
    }
}

/// A rehearsal that mostly runs; the rest are refused by 20 to 23 and 40.
pub fn rehearsal(seed: u64) -> Rehearsal {
    let mut random = Random::new(seed);
    let (sites, script) = plausible(&mut random);
    let openings = openings::openings(&mut random).to_bytes().to_vec();
    let mut rehearsal = Rehearsal::plain(sites, openings, script);
    rehearsal.record_bytes += random.pick(&[0, 0, 1, 300]);
    rehearsal.answer_bytes += random.pick(&[0, 0, 1, 7, 8, 64]);
    for _ in 0..random.pick(&[0, 0, 0, 0, 0, 0, 0, 0, 1, 1, 2, 2]) {
        spoil(&mut random, &mut rehearsal);
    }
    rehearsal
}

/// The same as the program reads it; some end within their openings.
pub fn program_input(seed: u64) -> Vec<u8> {
    let mut input = as_read(&rehearsal(seed));
    let mut random = Random::new(!seed);
    if random.chance(8) {
        match random.below(5) {
            0 => input[0] = random.pick(&[0, 9, 255]),
            1 => openings::value_under_clear_bit(&mut random, &mut input[1..=OPENINGS_BYTES]),
            _ => (),
        }
        input.truncate(1 + random.index(OPENINGS_BYTES));
    }
    input
}

/// A site count over 255 becomes 255, and openings of another length are cut or get zeros.
pub fn as_read(rehearsal: &Rehearsal) -> Vec<u8> {
    let mut openings = rehearsal.openings.clone();
    openings.resize(OPENINGS_BYTES, 0);
    [vec![rehearsal.sites.min(255) as u8], openings, rehearsal.script.clone()].concat()
}

fn spoil(random: &mut Random, rehearsal: &mut Rehearsal) {
    match random.below(6) {
        0 => rehearsal.sites = random.pick(&[0, 9, 255, 256, 257, u32::MAX]),
        1 => {
            let length = random.pick(&[1, 7, 9, 32_760, 32_767, 32_769, 32_776, 40_000]);
            rehearsal.script.resize(length, 0);
            rehearsal.answer_bytes = rehearsal.answer_bytes.max(length);
        }
        2 => rehearsal.record_bytes = random.pick(&[0, 512, 19_456, MOST_BYTES - 1]),
        3 => rehearsal.openings.resize(random.pick(&[0, 1, 4, 128, 131, 133, 264]), 0),
        4 if rehearsal.openings.len() == OPENINGS_BYTES => {
            openings::value_under_clear_bit(random, &mut rehearsal.openings)
        }
        _ => rehearsal.answer_bytes = rehearsal.script.len().saturating_sub(1 + random.index(16)),
    }
}

/// A site count and a script that the rehearsal runs.
pub fn plausible(random: &mut Random) -> (u32, Vec<u8>) {
    let mix = if random.chance(5) { puts_alone(random) } else { any_mix(random) };
    (mix.sites as u32, script(random, &mix))
}

/// Puts fill the store of eight sites, so that as many copies are outstanding as can be; 34 refuses those after them.
fn puts_alone(random: &mut Random) -> Mix {
    let end = random.pick(&[End::Nothing, End::Nothing, End::Deliveries, End::Close]);
    Mix { calls: MOST_EVENTS + random.index(40), puts: 100, deliveries: 0, end, ..day(8) }
}

fn any_mix(random: &mut Random) -> Mix {
    let calls = match random.below(20) {
        0 => 4_096,
        1..=3 => random.index(4_097),
        4..=8 => random.index(300),
        _ => random.index(40),
    };
    Mix {
        calls,
        sites: 1 + random.index(8),
        objects: random.pick(&[1, 2, OBJECTS]),
        puts: random.pick(&[20, 50, 80]),
        deliveries: random.pick(&[0, 30, 60, 90]),
        refused: random.pick(&[0, 3, 20, 60]),
        close_in: close_in(random, calls as u64),
        end: if random.chance(8) { End::Deliveries } else { End::Nothing },
    }
}

/// None in half of the scripts, as little is late or lacking after a close. Else most often about one in the whole
/// script, which finds much lacking, but also some, one in 16 calls, or so many that they stand in a row.
fn close_in(random: &mut Random, calls: u64) -> u64 {
    random.pick(&[0, 0, 0, 0, 0, calls, calls, 1 + calls / 4, 16, 2])
}

/// Puts and gets in turn over the sites until the store is full, every put
/// delivered everywhere it may go: the longest plain day.
pub fn full_day(seed: u64, sites: usize) -> Vec<u8> {
    script(&mut Random::new(seed), &day(sites))
}

/// Such a day where one in 16 calls is a close, both before and after the store is full.
pub fn day_with_closes(seed: u64, sites: usize) -> Vec<u8> {
    script(&mut Random::new(seed), &Mix { close_in: 16, ..day(sites) })
}

fn day(sites: usize) -> Mix {
    Mix { calls: 4_096, sites, objects: OBJECTS, puts: 60, deliveries: 85, refused: 0, close_in: 0, end: End::Nothing }
}

fn script(random: &mut Random, mix: &Mix) -> Vec<u8> {
    let mut store = Store::new(mix.sites);
    let mut script = Vec::with_capacity(mix.calls * CALL_BYTES);
    for _ in 0..mix.calls {
        let call = call(random, mix, &store);
        store.call(&call);
        script.extend(call);
    }
    match mix.end {
        End::Nothing => (),
        End::Deliveries => deliver_all_lacking(mix, &mut store, &mut script),
        End::Close => script.extend(Call::Close.to_bytes()),
    }
    script
}

/// Puts by event number, so that none comes before what it needs.
fn deliver_all_lacking(mix: &Mix, store: &mut Store, script: &mut Vec<u8>) {
    for event in 0..store.events() {
        for site in 0..mix.sites {
            let call = Call::Deliver { site, event };
            if script.len() < MOST_SCRIPT_BYTES && store.first_no(call).is_none() {
                store.call(&call.to_bytes());
                script.extend(call.to_bytes());
            }
        }
    }
}

fn call(random: &mut Random, mix: &Mix, store: &Store) -> [u8; CALL_BYTES] {
    if mix.close_in > 0 && random.below(mix.close_in) == 0 {
        return Call::Close.to_bytes();
    }
    if random.chance(mix.refused) {
        return spoilt(random, mix, store);
    }
    if random.chance(mix.deliveries) && store.events() > 0 {
        return delivery(random, mix, store).to_bytes();
    }
    event(random, mix).to_bytes()
}

fn event(random: &mut Random, mix: &Mix) -> Call {
    let (site, object) = (random.index(mix.sites), random.index(mix.objects));
    if random.chance(mix.puts) {
        let any = random.word() as u32;
        let value = random.pick(&[0, 1, 7, u32::MAX, any]);
        Call::Put { site, object, value }
    } else {
        Call::Get { site, object }
    }
}

/// Often one that can be done now, else whatever was drawn: late, repeated or
/// out of turn.
fn delivery(random: &mut Random, mix: &Mix, store: &Store) -> Call {
    let site = random.index(mix.sites);
    let drawn = Call::Deliver { site, event: random.index(store.events()) };
    if random.chance(40) {
        return drawn;
    }
    let mut in_turn = (0..store.events()).map(|event| Call::Deliver { site, event });
    in_turn.find(|&call| store.first_no(call).is_none()).unwrap_or(drawn)
}

/// A call that one of 31 to 36 is likely to refuse.
fn spoilt(random: &mut Random, mix: &Mix, store: &Store) -> [u8; CALL_BYTES] {
    let events = store.events();
    let mut call = match events {
        0 => event(random, mix),
        _ if random.chance(40) => delivery(random, mix, store),
        _ => event(random, mix),
    }
    .to_bytes();
    match random.below(10) {
        0 => call[0] = random.pick(&[0, 5, 6, 255]),
        1 => call[3] = 1 << random.below(8),
        2 => call[4 + random.index(4)] ^= 1 << random.below(8),
        3 => call[1] = random.pick(&[mix.sites as u8, 8, 255]),
        4 => call[2] = random.pick(&[31, 32, 33, 255]),
        5 => call = Call::Deliver { site: random.index(mix.sites), event: events }.to_bytes(),
        6 => call = Call::Deliver { site: random.index(9), event: random.index(65_536) }.to_bytes(),
        7 => call.copy_from_slice(&random.noise(CALL_BYTES)),
        8 => call = damaged_close(random),
        _ => call[0] = 3,
    }
    call
}

/// One byte that is not zero: as if a close named a site, an object or a value, or anything.
fn damaged_close(random: &mut Random) -> [u8; CALL_BYTES] {
    let mut call = Call::Close.to_bytes();
    let any = 1 + random.below(255) as u8;
    call[1 + random.index(CALL_BYTES - 1)] = random.pick(&[1, any]);
    call
}
