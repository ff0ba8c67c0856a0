//! Where the sites, the events and the arrows stand.

pub mod across;
mod columns;
pub mod rows;
pub mod scale;

use crate::drawing::frame::Frame;
use crate::drawing::page::MARGIN;
use crate::part::{Drawn, PerEvent};
use crate::sight::Arrow;
use crate::sight::Web;
use crate::ways::combs::{combs, Teeth};
use crate::ways::gaps::{self, Gap};
use crate::ways::ports::Ports;
use crate::ways::routes::{Ground, Route};
use crate::ways::tracks::Tracks;
use across::{Across, Span, LEFT};
use rows::{Row, Rows};
use scale::Scale;

/// An event's mark.
#[derive(Clone, Copy, Debug)]
pub struct Mark {
    pub frame: Frame,
    /// Where the line after it ends: at the event's return, or at the site's end while it is pending.
    pub until: f64,
    pub row: usize,
}

pub struct Layout {
    pub scale: Scale,
    pub width: f64,
    pub rows: Rows,
    pub marks: PerEvent<Mark>,
    /// The way of each arrow.
    pub routes: Vec<Route>,
}

/// What a layout is made of, before it is known how high anything stands.
struct Plan<'a> {
    scale: Scale,
    across: &'a Across,
    /// The lanes of each site.
    counts: Vec<usize>,
    rows: PerEvent<usize>,
    arrows: &'a [Arrow],
    ports: Vec<Ports>,
}

impl Layout {
    /// Arrows between rows go straight where they can. How high rows stand hangs on the others, and so does what can go
    /// straight; the others only become more.
    pub fn new(drawn: &Drawn, web: &Web, scale: Scale, across: &Across, top: f64) -> Layout {
        let counts = rows::counts(drawn, &web.lanes);
        let rows = rows::of_events(drawn, &web.lanes, &counts);
        let port = |arrow: &Arrow| Ports::new(arrow, &across.spans, &rows, &scale);
        let ports = web.arrows.iter().map(port).collect();
        let plan = Plan { scale, across, counts, arrows: &web.arrows, ports, rows };
        let mut is_bent = plan.bent_at_first();
        loop {
            let (layout, blocked) = plan.laid_out(&is_bent, top);
            if blocked.is_empty() {
                return layout;
            }
            blocked.iter().for_each(|&arrow| is_bent[arrow] = true);
        }
    }

    /// From where to where the room above a row goes.
    pub fn room(&self, row: usize) -> (f64, f64) {
        let over = if row == 0 { self.rows.bands[0].top } else { self.rows.rows[row - 1].bottom };
        (over, self.rows.rows[row].top)
    }

    /// Arrows that are not straight may share lines with each other.
    pub fn may_share_lines(&self) -> bool {
        self.routes.iter().filter(|route| route.points.len() > 2).count() > 1
    }

    /// How many pieces of arrows run through a frame.
    pub fn lines_through(&self, frame: &Frame) -> usize {
        let pieces = self.routes.iter().flat_map(|route| route.points.windows(2));
        pieces.filter(|piece| frame.is_met(piece[0], piece[1])).count()
    }
}

impl Plan<'_> {
    /// Arrows within a row. Where there are many, all, as straight lines would be a thicket; but not a break's.
    fn bent_at_first(&self) -> Vec<bool> {
        let is_level = |arrow: &Arrow| self.rows[arrow.from] == self.rows[arrow.to];
        let between_rows = self.arrows.iter().filter(|arrow| !is_level(arrow)).count();
        let is_thicket = between_rows > self.scale.straight(self.rows.count());
        let is_bent = |arrow: &Arrow| is_level(arrow) || is_thicket && !arrow.says.is_of_break();
        self.arrows.iter().map(is_bent).collect()
    }

    /// The layout where these arrows are bent, and the others that would pass behind marks.
    fn laid_out(&self, is_bent: &[bool], top: f64) -> (Layout, Vec<usize>) {
        let (bent, straight): (Vec<usize>, Vec<usize>) = (0..self.arrows.len()).partition(|&arrow| is_bent[arrow]);
        let teeth = Teeth { arrows: self.arrows, ports: &self.ports, rows: &self.rows };
        let combs = combs(&teeth, &bent, &self.gaps(), &self.scale);
        let tracks = Tracks::new(&combs, self.counts.iter().sum());
        let rows = Rows::new(&self.counts, &self.rooms(&tracks), &self.scale, top);
        let marks = self.marks(&rows);
        let ground = Ground { scale: &self.scale, teeth: &teeth, rows: &rows.rows, marks: &marks };
        let blocked = straight.into_iter().filter(|&arrow| !ground.is_clear(arrow)).collect();
        let routes = ground.routes(&combs, &tracks);
        let furthest = routes.iter().flat_map(|route| &route.points).map(|point| point.x).fold(0.0, f64::max);
        let width = self.across.width.max(furthest + MARGIN);
        (Layout { scale: self.scale, width, rows, marks, routes }, blocked)
    }

    /// The gaps of each row.
    fn gaps(&self) -> Vec<Vec<Gap>> {
        let mut marks: Vec<Vec<(f64, f64)>> = vec![Vec::new(); self.counts.iter().sum()];
        for (number, span) in self.across.spans.iter() {
            marks[self.rows[number]].push((span.left, span.right));
        }
        marks.iter_mut().for_each(|row| row.sort_by(|one, other| one.0.total_cmp(&other.0)));
        marks.iter().map(|row| gaps::between(row, LEFT - 16.0, self.scale.beside_mark())).collect()
    }

    /// What each row needs above it: for the lines there, and for notes.
    fn rooms(&self, tracks: &Tracks) -> Vec<f64> {
        let notes = self.arrows.iter().filter(|arrow| arrow.says.is_of_break());
        let notes: Vec<usize> = notes.map(|arrow| level_of_note(self.rows[arrow.from], self.rows[arrow.to])).collect();
        let room = |(level, &highest): (usize, &usize)| {
            let note = if notes.contains(&level) { self.scale.note } else { 0.0 };
            self.scale.level(highest) + note
        };
        tracks.highest.iter().enumerate().map(room).collect()
    }

    fn marks(&self, rows: &Rows) -> PerEvent<Mark> {
        let mark = |(number, span): (usize, &Span)| {
            let row = self.rows[number];
            let Row { top, bottom } = rows.rows[row];
            let frame = Frame { left: span.left, top, right: span.right, bottom };
            (number, Mark { frame, until: span.until, row })
        };
        self.across.spans.iter().map(mark).collect()
    }
}

/// The row above which an arrow from one row to another has its note: where it ends.
pub fn level_of_note(from: usize, to: usize) -> usize {
    to + usize::from(from > to)
}
