//! Where lanes and sites stand, from top to bottom.

use super::scale::Scale;
use crate::part::{Drawn, PerEvent};
use crate::sight::Lanes;

/// A lane of a site, as high as its marks. Between two rows there are only arrows.
#[derive(Clone, Copy, Debug)]
pub struct Row {
    pub top: f64,
    pub bottom: f64,
}

/// A site's band.
#[derive(Clone, Copy, Debug)]
pub struct Band {
    pub top: f64,
    pub bottom: f64,
    /// The row of its first lane.
    pub first: usize,
}

pub struct Rows {
    pub rows: Vec<Row>,
    pub bands: Vec<Band>,
}

impl Row {
    pub fn middle(&self) -> f64 {
        (self.top + self.bottom) / 2.0
    }
}

impl Rows {
    /// `lanes` has the number of each site's lanes, `rooms` what each row needs between it and the one above.
    pub fn new(lanes: &[usize], rooms: &[f64], scale: &Scale, top: f64) -> Rows {
        let mut rows = Rows { rows: Vec::new(), bands: Vec::new() };
        for &count in lanes {
            // Part of the room above a site's first row is below the site above.
            let (top, part) = match rows.bands.last() {
                Some(band) => (band.bottom + scale.between_sites, scale.below + scale.between_sites),
                None => (top, 0.0),
            };
            rows.add_site(count, rooms, part, scale, top);
        }
        rows
    }

    fn add_site(&mut self, count: usize, rooms: &[f64], part: f64, scale: &Scale, top: f64) {
        let (first, mut bottom) = (self.rows.len(), top);
        for (lane, room) in rooms[first..first + count].iter().enumerate() {
            let above = if lane == 0 { room - part } else { *room };
            let top = bottom + above.max(scale.room);
            bottom = top + scale.height;
            self.rows.push(Row { top, bottom });
        }
        self.bands.push(Band { top, bottom: bottom + scale.below, first });
    }

    pub fn bottom(&self) -> f64 {
        self.bands.last().map_or(0.0, |band| band.bottom)
    }
}

/// The number of lanes of each site that has a line.
pub fn counts(drawn: &Drawn, lanes: &Lanes) -> Vec<usize> {
    drawn.sites.iter().map(|&site| lanes.count(site)).collect()
}

/// The row of each event, through all these sites.
pub fn of_events(drawn: &Drawn, lanes: &Lanes, counts: &[usize]) -> PerEvent<usize> {
    let above = |site: usize| drawn.sites.iter().zip(counts).take_while(move |(&above, _)| above < site);
    let first = |site: usize| above(site).map(|(_, &count)| count).sum::<usize>();
    lanes.lanes().map(|(number, lane)| (number, first(drawn.record.events[number].site) + lane)).collect()
}
