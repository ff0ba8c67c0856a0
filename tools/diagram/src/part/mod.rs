//! Which events of a record a picture has.

mod drawn;
mod per_event;
mod undrawn;

pub use drawn::Drawn;
pub use per_event::PerEvent;
pub use undrawn::Undrawn;

use crate::record::{Event, Record};

/// The events before and after one that are drawn around it.
const BESIDE: usize = 8;

/// A part of a record to be drawn: events that every given field allows. What a break is made of is drawn too.
#[derive(Clone, Debug, Default, PartialEq, Eq)]
pub struct Part {
    /// These two events, and around each of them the eight that start before it and the eight that start after it.
    pub around: Option<(usize, usize)>,
    /// Events of these sites; of all where there are none.
    pub sites: Vec<usize>,
    /// Events on these objects; on all where there are none.
    pub objects: Vec<usize>,
}

impl Part {
    /// All of a record.
    pub fn whole() -> Part {
        Part::default()
    }

    /// The events of this part and those of a break, which are drawn in any case.
    pub(crate) fn of<'a>(&self, record: &'a Record, of_break: &[usize]) -> Result<Drawn<'a>, Undrawn> {
        self.is_of(record)?;
        let mut is_drawn = vec![false; record.events.len()];
        let (near, middle) = (self.near(record), self.around.map_or(Vec::new(), |(a, b)| vec![a, b]));
        near.into_iter().filter(|&event| self.allows(&record.events[event])).for_each(|event| is_drawn[event] = true);
        middle.iter().chain(of_break).for_each(|&event| is_drawn[event] = true);
        match is_drawn.contains(&true) || *self == Part::whole() {
            true => Ok(Drawn::new(record, is_drawn, |site| self.has_site(site))),
            false => Err(Undrawn::Nothing),
        }
    }

    /// Whether the record has what is named.
    fn is_of(&self, record: &Record) -> Result<(), Undrawn> {
        let (count, sites) = (record.events.len(), record.sites);
        let named = self.around.iter().flat_map(|&(a, b)| [a, b]);
        let events = named.filter(|&event| event >= count).map(|event| Undrawn::NoEvent { event, count });
        let missing = self.sites.iter().filter(|&&site| site >= sites);
        events.chain(missing.map(|&site| Undrawn::NoSite { site, sites })).next().map_or(Ok(()), Err)
    }

    fn has_site(&self, site: usize) -> bool {
        self.sites.is_empty() || self.sites.contains(&site)
    }

    fn allows(&self, event: &Event) -> bool {
        let is_on = self.objects.is_empty() || self.objects.contains(&event.object.into());
        is_on && self.has_site(event.site)
    }

    /// All events, or those around two: of events that start at once the one with the lower number is before the other.
    fn near(&self, record: &Record) -> Vec<usize> {
        let mut by_start: Vec<usize> = record.numbers().collect();
        let Some((a, b)) = self.around else { return by_start };
        by_start.sort_by_key(|&event| (record.events[event].start, event));
        let places = [a, b].map(|event| by_start.iter().position(|&other| other == event));
        let is_near = |at: usize| places.iter().flatten().any(|place| place.abs_diff(at) <= BESIDE);
        (0..by_start.len()).filter(|&at| is_near(at)).map(|at| by_start[at]).collect()
    }
}
