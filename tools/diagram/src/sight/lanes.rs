//! Events of a site that overlap in time are drawn one below the other.

use crate::part::PerEvent;
use crate::record::Event;
use std::collections::HashMap;

/// The events of a lane are in site order, each returned before the next starts, so what shares a lane is ordered and
/// what overlaps does not share one.
pub struct Lanes {
    /// The site of each event, its lane there, and the event next before it in that lane.
    stands: PerEvent<(usize, usize, Option<usize>)>,
}

impl Lanes {
    /// Of events with their numbers.
    pub fn new<'a>(events: impl Iterator<Item = (usize, &'a Event)>) -> Lanes {
        let mut by_start: Vec<(usize, &Event)> = events.collect();
        by_start.sort_by_key(|&(number, event)| (event.start, number));
        let mut last: HashMap<usize, Vec<(usize, &Event)>> = HashMap::new();
        let stands = by_start.into_iter().map(|(number, event)| {
            let (lane, before) = take_lane(last.entry(event.site).or_default(), number, event);
            (number, (event.site, lane, before))
        });
        Lanes { stands: stands.collect() }
    }

    /// The lane of each event within its site.
    pub fn lanes(&self) -> impl Iterator<Item = (usize, usize)> + '_ {
        self.stands.iter().map(|(number, &(_, lane, _))| (number, lane))
    }

    /// The event next before one in its lane; none of an event that is not here.
    pub fn before(&self, number: usize) -> Option<usize> {
        self.stands.get(number)?.2
    }

    /// How many lanes a site has; one without events has one too.
    pub fn count(&self, site: usize) -> usize {
        let used = self.stands.iter().filter(|(_, stands)| stands.0 == site);
        used.map(|(_, stands)| stands.1 + 1).max().unwrap_or(1)
    }
}

/// The first lane whose last event has returned, with that event, or a new one.
fn take_lane<'a>(last: &mut Vec<(usize, &'a Event)>, number: usize, event: &'a Event) -> (usize, Option<usize>) {
    match last.iter().position(|(_, before)| before.returned_before(event)) {
        Some(lane) => (lane, Some(std::mem::replace(&mut last[lane], (number, event)).0)),
        None => {
            last.push((number, event));
            (last.len() - 1, None)
        }
    }
}

#[cfg(test)]
mod tests {
    use super::*;

    fn event(site: usize, start: u64, end: Option<u64>) -> Event {
        Event { site, start, end, ..Event::from(&gcr::Event::blank()) }
    }

    fn lanes(events: &[Event]) -> Lanes {
        Lanes::new(events.iter().enumerate())
    }

    /// The lane of each event, and the one before it there.
    fn stand(lanes: &Lanes) -> Vec<(usize, Option<usize>)> {
        lanes.lanes().map(|(number, lane)| (lane, lanes.before(number))).collect()
    }

    #[test]
    fn events_in_turn_share_a_lane() {
        let lanes = lanes(&[event(0, 0, Some(1)), event(0, 2, Some(3)), event(1, 1, Some(4))]);
        assert_eq!(stand(&lanes), [(0, None), (0, Some(0)), (0, None)]);
    }

    #[test]
    fn events_that_touch_or_overlap_do_not() {
        let lanes = lanes(&[event(0, 0, Some(5)), event(0, 5, Some(5)), event(0, 6, Some(7))]);
        assert_eq!(stand(&lanes), [(0, None), (1, None), (0, Some(0))]);
    }

    #[test]
    fn nothing_follows_a_pending_event() {
        let lanes = lanes(&[event(0, 0, None), event(0, 9, Some(9)), event(0, 10, Some(11))]);
        assert_eq!(stand(&lanes), [(0, None), (1, None), (1, Some(1))]);
        assert_eq!((lanes.count(0), lanes.count(1)), (2, 1));
    }

    #[test]
    fn events_keep_their_numbers_where_others_are_left_out() {
        let events = [event(0, 0, Some(1)), event(0, 2, Some(3)), event(0, 4, Some(5))];
        let lanes = Lanes::new(events.iter().enumerate().filter(|(number, _)| *number != 1));
        assert_eq!(lanes.lanes().collect::<Vec<_>>(), [(0, 0), (2, 0)]);
        assert_eq!((lanes.before(1), lanes.before(2)), (None, Some(0)));
    }
}
