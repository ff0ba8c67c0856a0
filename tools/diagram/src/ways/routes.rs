//! The ways of arrows, so that none passes behind the mark of an event at neither of its ends.

use super::combs::{Comb, Teeth};
use super::ports::Side;
use super::tracks::Tracks;
use crate::drawing::svg::{at, Point};
use crate::layout::rows::Row;
use crate::layout::scale::Scale;
use crate::layout::Mark;
use crate::part::PerEvent;

/// An arrow's way: straight from the first point to the second, or upright and level in turn.
#[derive(Clone, Debug)]
pub struct Route {
    pub points: Vec<Point>,
}

/// What ways are found on.
pub struct Ground<'a> {
    pub scale: &'a Scale,
    pub teeth: &'a Teeth<'a>,
    pub rows: &'a [Row],
    pub marks: &'a PerEvent<Mark>,
}

impl Ground<'_> {
    /// The way of each arrow: with its comb, or else straight.
    pub fn routes(&self, combs: &[Comb], tracks: &Tracks) -> Vec<Route> {
        let straight = |arrow: usize| Route { points: vec![self.begin(arrow), self.end(arrow)] };
        let mut routes: Vec<Route> = (0..self.teeth.arrows.len()).map(straight).collect();
        for (comb, tracks) in combs.iter().zip(&tracks.track) {
            for &arrow in &comb.arrows {
                routes[arrow] = self.along(arrow, comb, tracks);
            }
        }
        routes
    }

    fn begin(&self, arrow: usize) -> Point {
        self.edge(self.teeth.arrows[arrow].from, self.teeth.ports[arrow].leaves)
    }

    fn end(&self, arrow: usize) -> Point {
        self.edge(self.teeth.arrows[arrow].to, self.teeth.ports[arrow].enters)
    }

    fn edge(&self, event: usize, (side, x): (Side, f64)) -> Point {
        match side {
            Side::Top => at(x, self.marks[event].frame.top - 1.0),
            Side::Bottom => at(x, self.marks[event].frame.bottom + 1.0),
        }
    }

    /// Where a comb has no line at a level it stays upright.
    fn along(&self, arrow: usize, comb: &Comb, tracks: &[Option<usize>]) -> Route {
        let (begin, end) = (self.begin(arrow), self.end(arrow));
        let levels = &comb.levels[..self.teeth.levels(arrow).len()];
        let onward = levels[1..].iter().map(|level| level.comes).chain([end.x]);
        let mut points = vec![begin];
        for ((level, track), onward) in levels.iter().zip(tracks).zip(onward) {
            if let Some(track) = track.filter(|_| onward != level.comes) {
                let height = self.height(level.level, track);
                points.extend([at(level.comes, height), at(onward, height)]);
            }
        }
        points.push(end);
        Route { points }
    }

    fn height(&self, level: usize, track: usize) -> f64 {
        self.rows[level].top - self.scale.clear - self.scale.track * (track - 1) as f64
    }

    /// Whether an arrow can go straight.
    pub fn is_clear(&self, arrow: usize) -> bool {
        let (from, to) = (self.teeth.arrows[arrow].from, self.teeth.arrows[arrow].to);
        let mut others = self.marks.iter().filter(|&(event, _)| event != from && event != to);
        let room = self.scale.beside_mark();
        !others.any(|(_, mark)| mark.frame.grown(room).is_met(self.begin(arrow), self.end(arrow)))
    }
}
