//! Parts of records to draw, and which events they have.

use diagram::Part;
use second::generate::random::Random;
use second::record::Record;
use std::collections::BTreeSet;

/// Any of the three kinds, alone or together; what it names is in the record.
pub fn random(seed: u64, record: &Record) -> Part {
    let (mut random, events) = (Random::new(90_000 + seed), record.events.len());
    let mut part = Part::whole();
    if events > 0 && random.chance(60) {
        part.around = Some((random.index(events), random.index(events)));
    }
    if random.chance(40) {
        part.sites = (0..1 + random.index(2)).map(|_| random.index(record.sites.into())).collect();
    }
    if random.chance(40) {
        part.objects = (0..1 + random.index(2)).map(|_| random.index(4)).collect();
    }
    part
}

/// The events that a part has by itself.
pub fn events(part: &Part, record: &Record) -> BTreeSet<usize> {
    let is_at = |event: &usize| part.sites.is_empty() || part.sites.contains(&record.events[*event].site.into());
    let is_on = |event: &usize| part.objects.is_empty() || part.objects.contains(&record.events[*event].object.into());
    let middle = part.around.iter().flat_map(|&(a, b)| [a, b]);
    let near = |event: &usize| part.around.is_none() || middle.clone().any(|middle| beside(record, middle, *event));
    let allowed = (0..record.events.len()).filter(near).filter(is_at).filter(is_on);
    allowed.chain(middle.clone()).collect()
}

/// Whether at most seven events start between these two; of those that start at once the lower number is first.
fn beside(record: &Record, one: usize, other: usize) -> bool {
    let starts = |event: usize| (record.events[event].start, event);
    let (first, last) = (starts(one).min(starts(other)), starts(one).max(starts(other)));
    (0..record.events.len()).filter(|&event| first < starts(event) && starts(event) < last).count() < 8
}
