//! Where events and times stand, from left to right.

use super::columns::{Columns, Gaps};
use super::scale::Scale;
use crate::drawing::page::LEAST_WIDTH;
use crate::part::{Drawn, PerEvent};
use crate::record::Event;

/// Room left of the first time, for the sites' names, and right of the last.
pub const LEFT: f64 = 96.0;
const RIGHT: f64 = 40.0;
/// Few events are not spread further than this.
const WIDEST_GAP: f64 = 150.0;

pub struct Across {
    pub spans: PerEvent<Span>,
    pub ticks: Vec<(u64, f64)>,
    pub width: f64,
}

/// From where to where an event's mark goes, and until where the line after it: to its return, or on while pending.
#[derive(Clone, Copy, Debug)]
pub struct Span {
    pub left: f64,
    pub right: f64,
    pub until: f64,
}

impl Across {
    pub fn new(drawn: &Drawn, scale: &Scale) -> Across {
        let marks: Vec<(&Event, f64)> = drawn.events().map(|(_, event)| (event, scale.width(&event.label()))).collect();
        let columns = spread(&marks, scale.gap);
        let width = (LEFT + end(&marks, &columns) + RIGHT).max(LEAST_WIDTH);
        let span = |(&number, &(event, needed)): (&usize, &(&Event, f64))| {
            let left = LEFT + columns.left(event.start);
            let span = match event.end.map(|time| LEFT + columns.right(time)) {
                Some(until) => Span { left, right: right(left + needed, until, scale), until },
                None => Span { left, right: left + needed, until: line_end(width) },
            };
            (number, span)
        };
        let spans = drawn.numbers.iter().zip(&marks).map(span).collect();
        Across { spans, ticks: columns.ticks().map(|(time, x)| (time, LEFT + x)).collect(), width }
    }

    pub fn line_end(&self) -> f64 {
        line_end(self.width)
    }
}

/// Where the sites' lines end.
fn line_end(width: f64) -> f64 {
    width - RIGHT / 2.0
}

/// A mark is a little wider than it need be where the line after it would be too short to be seen.
fn right(needed: f64, until: f64, scale: &Scale) -> f64 {
    match until - needed < scale.gap {
        true => until,
        false => needed,
    }
}

/// Few events are spread over the least width.
fn spread(marks: &[(&Event, f64)], gap: f64) -> Columns {
    let columns = |before_start| Columns::new(marks, Gaps { before_return: gap, before_start });
    let is_narrow = |columns: &Columns| LEFT + end(marks, columns) + RIGHT < LEAST_WIDTH;
    let (mut before_start, mut spread) = (gap, columns(gap));
    while before_start < WIDEST_GAP && is_narrow(&spread) {
        before_start += 2.0;
        spread = columns(before_start);
    }
    spread
}

/// The last mark's end.
fn end(marks: &[(&Event, f64)], columns: &Columns) -> f64 {
    let ends = marks.iter().map(|&(event, width)| match event.end {
        Some(time) => columns.right(time),
        None => columns.left(event.start) + width,
    });
    ends.fold(0.0, f64::max)
}
