//! Upright lines between rows and through them, none on another.

use super::combs::Teeth;
use super::gaps::{best, Gap};
use super::ports::Side;
use crate::layout::scale::Scale;
use std::collections::HashMap;

/// How a line stands to a row.
#[derive(Clone, Copy, Debug, PartialEq, Eq, Hash)]
enum Stands {
    Through,
    OnMark,
    UnderMark,
}

/// Where a line is, and the event that it comes from. A line into a mark may come from many.
type Line = (f64, Option<usize>);

pub struct Uprights<'a> {
    gaps: &'a [Vec<Gap>],
    apart: f64,
    /// Each line by its row and by the stretch, `apart` long, that it is in.
    lines: HashMap<(Stands, usize, i64), Vec<Line>>,
}

impl<'a> Uprights<'a> {
    /// With the ends of these arrows.
    pub fn new(teeth: &Teeth, bent: &[usize], gaps: &'a [Vec<Gap>], scale: &Scale) -> Uprights<'a> {
        let mut uprights = Uprights { gaps, apart: scale.apart, lines: HashMap::new() };
        for &index in bent {
            let (arrow, ports) = (&teeth.arrows[index], &teeth.ports[index]);
            uprights.add(stands(ports.leaves.0), teeth.rows[arrow.from], (ports.leaves.1, Some(arrow.from)));
            uprights.add(stands(ports.enters.0), teeth.rows[arrow.to], (ports.enters.1, None));
        }
        uprights
    }

    fn stretch(&self, x: f64) -> i64 {
        (x / self.apart).floor() as i64
    }

    fn add(&mut self, stands: Stands, row: usize, line: Line) {
        let stretch = self.stretch(line.0);
        self.lines.entry((stands, row, stretch)).or_default().push(line);
    }

    /// Takes a place in a row for a line that comes from an event and would go on at x.
    pub fn pass(&mut self, row: usize, x: f64, from: usize) -> f64 {
        let place = best(&self.gaps[row], x, self.apart, |place| self.is_free(row, place, from));
        self.add(Stands::Through, row, (place, Some(from)));
        place
    }

    /// Whether no line of another event is as near, in the row or on either side of it.
    fn is_free(&self, row: usize, place: f64, from: usize) -> bool {
        let above = row.checked_sub(1).map(|row| [(Stands::Through, row), (Stands::UnderMark, row)]);
        let beside = [(Stands::Through, row), (Stands::Through, row + 1), (Stands::OnMark, row + 1)];
        let meets = |&(x, other): &Line| (x - place).abs() < self.apart / 2.0 && other != Some(from);
        let is_met = |(stands, row): (Stands, usize)| {
            let near = (-1..=1).filter_map(|by| self.lines.get(&(stands, row, self.stretch(place) + by)));
            near.flatten().any(meets)
        };
        !above.into_iter().flatten().chain(beside).any(is_met)
    }
}

fn stands(side: Side) -> Stands {
    match side {
        Side::Top => Stands::OnMark,
        Side::Bottom => Stands::UnderMark,
    }
}
