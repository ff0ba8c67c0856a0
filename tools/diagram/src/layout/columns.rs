//! Where each point in time stands, from left to right.

use crate::record::Event;

/// Only the order of times is kept, and that exactly: an event's return is a lower number than another's start where its
/// mark and the line after it end left of the other's mark. Between sites whose clocks may differ that is not enough to
/// have returned before it.
pub struct Columns {
    times: Vec<u64>,
    /// Where marks that start at this time begin, and where those that return at it end. The two differ only where a
    /// mark does both, which still needs its width.
    left: Vec<f64>,
    right: Vec<f64>,
}

/// The least distances of a time from the one before.
#[derive(Clone, Copy)]
pub struct Gaps {
    pub before_return: f64,
    /// Wider where there is room, so that marks stand apart and stay short.
    pub before_start: f64,
}

impl Columns {
    /// Of events, each with the width that its mark needs.
    pub fn new(events: &[(&Event, f64)], gaps: Gaps) -> Columns {
        let times = events.iter().flat_map(|(event, _)| [Some(event.start), event.end]);
        let mut times: Vec<u64> = times.flatten().collect();
        times.sort_unstable();
        times.dedup();
        let mut columns = Columns { times, left: Vec::new(), right: Vec::new() };
        for at in 0..columns.times.len() {
            columns.place(at, events, gaps);
        }
        columns
    }

    fn place(&mut self, at: usize, events: &[(&Event, f64)], gaps: Gaps) {
        let is_start = events.iter().any(|(event, _)| event.start == self.times[at]);
        let gap = if is_start { gaps.before_start } else { gaps.before_return };
        let (mut left, mut at_once) = (self.right.last().map_or(0.0, |before| before + gap), 0.0f64);
        for &(event, width) in events.iter().filter(|(event, _)| event.end == Some(self.times[at])) {
            if event.start < self.times[at] {
                left = left.max(self.left(event.start) + width);
            } else {
                at_once = at_once.max(width);
            }
        }
        self.left.push(left);
        self.right.push(left + at_once);
    }

    pub fn left(&self, time: u64) -> f64 {
        self.left[self.index(time)]
    }

    pub fn right(&self, time: u64) -> f64 {
        self.right[self.index(time)]
    }

    /// The times with their places.
    pub fn ticks(&self) -> impl Iterator<Item = (u64, f64)> + '_ {
        self.times.iter().copied().zip(self.left.iter().copied())
    }

    fn index(&self, time: u64) -> usize {
        self.times.binary_search(&time).expect("every start and return has its column")
    }
}

#[cfg(test)]
mod tests {
    use super::*;

    const GAPS: Gaps = Gaps { before_return: 4.0, before_start: 10.0 };

    fn event(start: u64, end: Option<u64>) -> Event {
        Event { start, end, ..Event::from(&gcr::Event::blank()) }
    }

    #[test]
    fn marks_have_their_width_and_times_their_gap() {
        let columns = Columns::new(&[(&event(0, Some(1)), 50.0), (&event(7, Some(900)), 3.0)], GAPS);
        assert_eq!((columns.left(0), columns.right(1)), (0.0, 50.0));
        assert_eq!((columns.left(7), columns.right(900)), (60.0, 64.0));
    }

    #[test]
    fn a_mark_of_no_time_overlaps_what_touches_it() {
        let events = [event(5, Some(5)), event(0, Some(5)), event(5, None)];
        let columns = Columns::new(&[(&events[0], 30.0), (&events[1], 20.0), (&events[2], 0.0)], GAPS);
        assert_eq!((columns.left(5), columns.right(5)), (20.0, 50.0));
    }
}
