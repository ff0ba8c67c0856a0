//! Differences of clocks by chance, and times that lie where a difference tells.

use super::random::Random;
use crate::record::{Event, Record};

/// None, a small one, any, the largest, or one near the time between two events of different sites.
pub fn difference(random: &mut Random, events: &[Event]) -> u32 {
    match random.below(8) {
        0 => 0,
        1 => random.below(8) as u32,
        2 => wide(random),
        _ => near_a_gap(random, events).unwrap_or(1),
    }
}

fn wide(random: &mut Random) -> u32 {
    let any = random.word() as u32;
    random.pick(&[1, 1 << 31, any, u32::MAX])
}

/// As long as some event of another site started after a return, or one more or less. Often against arbitration, where
/// it tells.
fn near_a_gap(random: &mut Random, events: &[Event]) -> Option<u32> {
    let mut drawn: Vec<(bool, u64)> = (0..12).filter_map(|_| drawn_gap(random, events)).collect();
    drawn.sort_by_key(|&(against, _)| against);
    let (_, gap) = drawn.pop()?;
    u32::try_from(random.pick(&[gap - 1, gap - 1, gap, gap + 1])).ok()
}

/// Of two events, if there is time between them, with whether arbitration has them the other way.
fn drawn_gap(random: &mut Random, events: &[Event]) -> Option<(bool, u64)> {
    let mut draw = || events.get(random.index(events.len().max(1)));
    let (a, b) = (draw()?, draw()?);
    let end = a.end?;
    let between = a.site != b.site && end < b.start;
    between.then(|| (a.position > b.position, b.start - end))
}

/// Lets the sites' clocks differ, and the record tell by how much at most: each event comes later by what its site's
/// clock is ahead. Whatever the record then tells as returned before, returned before by one clock too.
pub fn set_apart(random: &mut Random, record: &mut Record) {
    let any = wide(random);
    let difference = random.pick(&[1, 1, 2, 3, 5, any]);
    let ahead = [(); 8].map(|()| {
        let between = random.below(difference as u64 + 1);
        random.pick(&[0, difference as u64, between])
    });
    for event in &mut record.events {
        move_by(event, ahead[event.site as usize]);
    }
    (record.edition, record.difference) = (record.edition.to_be_headed(), difference);
}

/// The latest time of all becomes the largest there is, so that sums with it go past 64 bits.
pub fn move_to_the_end(record: &mut Record) {
    let times = record.events.iter().flat_map(|event| [Some(event.start), event.end]).flatten();
    let latest = times.max().unwrap_or(0);
    record.events.iter_mut().for_each(|event| move_by(event, u64::MAX - latest));
}

fn move_by(event: &mut Event, later: u64) {
    event.start += later;
    event.end = event.end.map(|end| end + later);
}
