//! Editions and openings by chance.

use super::clocks;
use super::random::Random;
use crate::openings::{value_at, Openings, OBJECTS};
use crate::record::{Edition, Record};

/// The same events in some edition, with a difference and openings where it has them.
pub fn of_any_edition(random: &mut Random, record: Record) -> Record {
    let edition = edition(random, record.events.len());
    if !edition.headed {
        return record.in_edition(edition);
    }
    let difference = clocks::difference(random, &record.events);
    record.in_edition(edition).apart(difference).opened(openings(random))
}

/// One with room for so many events.
pub fn edition(random: &mut Random, events: usize) -> Edition {
    match random.below(100) {
        _ if events > Edition::GCR2.most_events => Edition::GCR3,
        0..35 => Edition::GCR1,
        35..65 => Edition::GCR2,
        _ => Edition::GCR3,
    }
}

/// For none, some or all objects. The figures are often those that events hold too, and often 0.
pub fn openings(random: &mut Random) -> Openings {
    let share = random.pick(&[0, 40, 60, 80, 100]);
    Openings::from_figures([(); OBJECTS].map(|()| random.chance(share).then(|| figure(random))))
}

fn figure(random: &mut Random) -> u32 {
    let any = random.word() as u32;
    random.pick(&[0, 0, 0, 0, 1, 2, u32::MAX, any])
}

/// Leaves a value under a clear bit in the 132 bytes, at any object.
pub fn value_under_clear_bit(random: &mut Random, openings: &mut [u8]) {
    let object = random.index(OBJECTS);
    openings[object / 8] &= !(1 << (object % 8));
    openings[value_at(object) + random.index(4)] |= 1 << random.below(8);
}
