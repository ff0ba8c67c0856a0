//! The note at an arrow of a break, and the cross of one that is missing.

use super::counts::Count;
use crate::drawing::frame::Frame;
use crate::drawing::letters::bold_width;
use crate::drawing::page::MARGIN;
use crate::drawing::svg::{at, steps, Point, Svg};
use crate::layout::across::LEFT;
use crate::layout::{level_of_note, Layout};
use crate::sight::Arrow;
use crate::ways::routes::Route;

const FONT: f64 = 12.5;
/// Half of a cross.
const CROSS: f64 = 6.0;
/// By how much a note may be higher than beside its arrow: more than from one level line to the next.
const RAISED: f64 = 9.0;
/// Where along its way an arrow may have its note, the best first.
const PARTS: [f64; 5] = [0.5, 0.35, 0.65, 0.2, 0.8];

/// A place on an arrow, with one for the note.
#[derive(Clone, Copy)]
struct Place {
    on: Point,
    note: Frame,
}

/// A note at its arrow.
pub struct Said<'a> {
    note: &'a str,
    place: Place,
    is_missing: bool,
}

/// Off these counts, as far as can be, and where fewest lines run through the note. The counts that stay in its way are
/// left out.
pub fn said<'a>(layout: &Layout, of: (&Arrow, &Route), note: &'a str, counts: &mut Vec<Count>) -> Option<Said<'a>> {
    let (arrow, route) = of;
    let size = (bold_width(note, FONT), 1.2 * FONT);
    let covered = |place: &Place| counts.iter().filter(|count| count.frame.overlaps(&place.note)).count();
    let places = places(route, size, &bounds(layout, arrow)).into_iter();
    let place = places.min_by_key(|place| (covered(place), layout.lines_through(&place.note)))?;
    counts.retain(|count| !count.frame.overlaps(&place.note));
    Some(Said { note, place, is_missing: arrow.says.is_missing() })
}

impl Said<'_> {
    /// Under the cross and its arrow, but over a band that they may lie on.
    pub fn edge(&self, svg: &mut Svg) {
        if self.is_missing {
            svg.path("edge", &cross(self.place.on));
        }
    }

    pub fn draw(&self, svg: &mut Svg) {
        if self.is_missing {
            svg.path("cross", &cross(self.place.on));
        }
        let Frame { left, right, bottom, .. } = self.place.note;
        svg.centred("said", at((left + right) / 2.0, bottom - 0.25 * FONT), FONT, self.note);
    }
}

pub fn cross(place: Point) -> String {
    let corner = |x: f64, y: f64| at(place.x + x * CROSS, place.y + y * CROSS);
    let (one, other) = ((corner(-1.0, -1.0), corner(1.0, 1.0)), (corner(-1.0, 1.0), corner(1.0, -1.0)));
    steps(&[("M", &[one.0]), ("L", &[one.1]), ("M", &[other.0]), ("L", &[other.1])])
}

/// The room between two rows in which an arrow ends: there are no marks in it.
fn bounds(layout: &Layout, arrow: &Arrow) -> Frame {
    let (over, under) = layout.room(level_of_note(layout.marks[arrow.from].row, layout.marks[arrow.to].row));
    let beside = layout.scale.beside_mark();
    Frame { left: LEFT, top: over + beside, right: layout.width - MARGIN, bottom: under - beside }
}

/// Above the last level line, or beside the last piece of the way.
fn places(route: &Route, size: (f64, f64), bounds: &Frame) -> Vec<Place> {
    let (before, last) = route.points.split_at(route.points.len() - 1);
    let level = match before {
        [.., from, to] => over(*from, *to, size, bounds),
        _ => Vec::new(),
    };
    let piece = beside(before[before.len() - 1], last[0], size, bounds);
    level.into_iter().chain(piece).filter(|place| bounds.holds(&place.note)).collect()
}

/// Beside a line from one row to the next, on the sides from which it falls away, or in need across it.
fn beside(from: Point, to: Point, size: (f64, f64), bounds: &Frame) -> Vec<Place> {
    let falls = (to.x - from.x) * (to.y - from.y) >= 0.0;
    let on = |part: f64| {
        let y = bounds.top + part * (bounds.bottom - bounds.top);
        at(from.x + (y - from.y) / (to.y - from.y) * (to.x - from.x), y)
    };
    let corners = |on: Point| {
        let (left, right) = (on.x - CROSS - size.0, on.x + CROSS);
        let (above, below) = (on.y - CROSS - size.1, on.y + CROSS);
        let corners = if falls { [(right, above), (left, below)] } else { [(right, below), (left, above)] };
        corners.map(|(left, top)| Place { on, note: framed(left, top, size) })
    };
    let places = PARTS.into_iter().flat_map(|part| corners(on(part))).chain([above(on(0.5), size, bounds)]);
    places.filter(|place| (from.y - place.on.y) * (to.y - place.on.y) < 0.0).collect()
}

/// Above a level line, or in need above the next one too.
fn over(from: Point, to: Point, size: (f64, f64), bounds: &Frame) -> Vec<Place> {
    let on = |part: f64| at(from.x + part * (to.x - from.x), from.y);
    let place = |raised: f64| PARTS.map(|part| above(on(part), size, bounds).raised(raised));
    [0.0, RAISED].into_iter().flat_map(place).collect()
}

impl Place {
    /// With the note so much higher.
    fn raised(self, by: f64) -> Place {
        let note = Frame { top: self.note.top - by, bottom: self.note.bottom - by, ..self.note };
        Place { note, ..self }
    }
}

/// Around the middle above a place, or as near to that as the bounds allow.
fn above(on: Point, size: (f64, f64), bounds: &Frame) -> Place {
    let left = (on.x - size.0 / 2.0).min(bounds.right - size.0).max(bounds.left);
    Place { on, note: framed(left, on.y - CROSS - size.1, size) }
}

fn framed(left: f64, top: f64, size: (f64, f64)) -> Frame {
    Frame { left, top, right: left + size.0, bottom: top + size.1 }
}
