//! Inputs by seed: the same seed always gives the same input.

pub mod apart;
pub mod chains;
pub mod change;
pub mod clocks;
pub mod damage;
pub mod harvest_day;
pub mod later;
pub mod meeting;
pub mod openings;
pub mod random;
pub mod returns;
pub mod scripts;
pub mod shapes;
pub mod sweeps;

use crate::limits::MOST_EVENTS;
use crate::models::MODELS;
use crate::record::{Edition, Record};
use crate::store::Store;
use random::Random;

/// A record's bytes with a name for the family it comes from.
pub struct Sample {
    pub family: &'static str,
    pub bytes: Vec<u8>,
}

type Family = fn(&mut Random) -> Vec<u8>;

/// Each family with its share of a hundred seeds.
const FAMILIES: [(u64, &str, Family); 12] = [
    (6, "small", small),
    (10, "returns", at_returns),
    (11, "edge", edge),
    (8, "apart", models_apart),
    (28, "damaged", damaged),
    (18, "block-0", block_0),
    (4, "tail", block_tail),
    (1, "bit", one_bit),
    (3, "large", large),
    (3, "large-edge", large_edge),
    (5, "harvest", harvest),
    (3, "rehearsed", rehearsed),
];

pub fn record(seed: u64) -> Sample {
    let mut random = Random::new(seed);
    let mut draw = random.below(100);
    for (share, family, make) in FAMILIES {
        if draw < share {
            return Sample { family, bytes: make(&mut random) };
        }
        draw -= share;
    }
    unreachable!("the shares make a hundred")
}

/// A record for the call that explains: every other seed's is made of chains.
pub fn to_explain(seed: u64) -> Sample {
    match seed.is_multiple_of(2) {
        true => record(seed),
        false => Sample { family: "chains", bytes: chains::record(&mut Random::new(seed)).to_bytes() },
    }
}

fn small(random: &mut Random) -> Vec<u8> {
    let n = random.below(7) as usize;
    shapes::of_any_edition(random, n).to_bytes()
}

fn at_returns(random: &mut Random) -> Vec<u8> {
    let n = 3 + random.below(3) as usize;
    returns::record(random, n).to_bytes()
}

fn large(random: &mut Random) -> Vec<u8> {
    let n = large_count(random);
    shapes::of_any_edition(random, n).to_bytes()
}

/// Whole blocks, one more, one less, and anything between; often as many as an older edition holds, and sometimes as
/// many as there can be. Not often, as these take long.
fn large_count(random: &mut Random) -> usize {
    let older = Edition::GCR2.most_events;
    match random.below(20) {
        0..3 => older,
        3 => older - random.index(6),
        4 => older + 1 + random.index(MOST_EVENTS - older),
        5 => MOST_EVENTS - random.index(7),
        _ => 6 + random.index(older - 80),
    }
}

fn edge(random: &mut Random) -> Vec<u8> {
    let n = 1 + random.below(9) as usize;
    edge_of(random, n).to_bytes()
}

fn large_edge(random: &mut Random) -> Vec<u8> {
    let n = large_count(random);
    edge_of(random, n).to_bytes()
}

/// Of the last edition, with about as many events as no older one holds. Mostly what is told of them is about the last
/// ones.
fn harvest(random: &mut Random) -> Vec<u8> {
    let between = 258 + random.index(125);
    let n = random.pick(&[256, 257, between, between, 383, 384, 384, 384]);
    let told = 4 + random.index(9);
    let record = match random.below(10) {
        0..6 => later::numbered_later(&shapes::of_any_edition(random, told), n - told),
        6..8 => later::numbered_later(&edge_of(random, told), n - told),
        _ => edge_of(random, n),
    };
    let mut bytes = record.in_edition(Edition::GCR3).to_bytes();
    if random.chance(45) {
        damage::last_event(random, &mut bytes);
    }
    bytes
}

/// Meets a predicate or a model, but for one changed field or bit.
fn edge_of(random: &mut Random, n: usize) -> Record {
    let predicates = match random.chance(50) {
        true => &[1 + random.below(13) as u32],
        false => random.pick(&MODELS),
    };
    let mut record = meeting::record(random, n, predicates);
    if random.chance(90) {
        change::one_field(random, &mut record);
    }
    record
}

fn models_apart(random: &mut Random) -> Vec<u8> {
    let n = 3 + random.below(6) as usize;
    let model = random.pick(&apart::MODELS);
    apart::record(random, n, model).to_bytes()
}

fn damaged(random: &mut Random) -> Vec<u8> {
    let n = if random.chance(80) { random.below(24) as usize } else { large_count(random) };
    let mut bytes = shapes::of_any_edition(random, n).to_bytes();
    for _ in 0..1 + random.below(5) / 3 {
        damage::once(random, &mut bytes);
    }
    bytes
}

fn block_0(random: &mut Random) -> Vec<u8> {
    let n = random.below(4) as usize;
    let mut bytes = shapes::of_any_edition(random, n).to_bytes();
    damage::block_0(random, &mut bytes);
    bytes
}

/// Turns a bit behind the slots of a block.
fn block_tail(random: &mut Random) -> Vec<u8> {
    let n = 1 + random.below(14) as usize;
    let mut bytes = shapes::of_any_edition(random, n).to_bytes();
    damage::block_tail(random, &mut bytes);
    bytes
}

fn one_bit(random: &mut Random) -> Vec<u8> {
    let n = random.below(10) as usize;
    let mut bytes = shapes::of_any_edition(random, n).to_bytes();
    damage::any_bit(random, &mut bytes);
    bytes
}

fn rehearsed(random: &mut Random) -> Vec<u8> {
    let (sites, script) = scripts::plausible(random);
    let mut store = Store::opened(sites as usize, openings::openings(random));
    store.run(&script, &mut vec![0; script.len()]);
    let mut record = store.record();
    if random.chance(50) && !record.events.is_empty() {
        change::one_field(random, &mut record);
    }
    record.to_bytes()
}
