//! Where boxes and lines stand.

use crate::across::Across;
use crate::boxes;
use crate::chains::{needed, Pair};
use crate::claim::MODELS;
use crate::net::{Net, Node};
use crate::ports::{links, Link};
use crate::table::Table;
use diagram::drawing::frame::Frame;
use diagram::drawing::page::{LEAST_WIDTH, MARGIN};
use diagram::drawing::svg::{at, Point};

/// Between layers.
const GAP: f64 = 74.0;
/// A line that passes through a layer leads straight down for so much over and under it too.
const CLEAR: f64 = 14.0;

/// A line between two models, as the points through which it goes down.
pub struct Line {
    pub ends: Pair,
    pub points: Vec<Point>,
}

pub struct Layout {
    /// One for each model.
    pub boxes: Vec<Frame>,
    pub lines: Vec<Line>,
    pub width: f64,
    pub bottom: f64,
}

/// From where to where a layer goes, and where its nodes stand in it.
struct Places {
    rows: Vec<(f64, f64)>,
    depths: Vec<usize>,
    middles: Vec<f64>,
}

impl Layout {
    /// Of the pairs that no chain of others gives, from this height on.
    pub fn new(table: &Table, top: f64) -> Layout {
        let net = Net::new(&needed(&table.listed)).ordered();
        let links = links(&net, boxes::WIDTH);
        let across = Across { net: &net, links: &links, width: boxes::WIDTH };
        let space = across.least().max(LEAST_WIDTH - 2.0 * MARGIN);
        let middles = across.middles(space).into_iter().map(|middle| MARGIN + middle).collect();
        let height = boxes::height(&table.names);
        let row = |depth: usize| top + depth as f64 * (height + GAP);
        let rows: Vec<(f64, f64)> = (0..net.layers.len()).map(|depth| (row(depth), row(depth) + height)).collect();
        let bottom = rows.last().map_or(top, |row| row.1);
        let places = Places { rows, depths: net.depths(), middles };
        Layout { boxes: places.boxes(), lines: places.lines(&net, &links), width: space + 2.0 * MARGIN, bottom }
    }
}

impl Places {
    fn boxes(&self) -> Vec<Frame> {
        let half = boxes::WIDTH / 2.0;
        let frame = |node: Node| {
            let ((top, bottom), middle) = (self.rows[self.depths[node]], self.middles[node]);
            Frame { left: middle - half, top, right: middle + half, bottom }
        };
        (0..MODELS).map(frame).collect()
    }

    /// The links stand in the order of the lines.
    fn lines(&self, net: &Net, links: &[Link]) -> Vec<Line> {
        let mut rest = links;
        let mut lines = Vec::new();
        for nodes in &net.lines {
            let (own, others) = rest.split_at(nodes.len() - 1);
            rest = others;
            let points: Vec<Point> = own.iter().flat_map(|link| self.ends(link)).collect();
            lines.push(Line { ends: (nodes[0], nodes[nodes.len() - 1]), points: turns(&points) });
        }
        lines
    }

    /// From one layer to the next.
    fn ends(&self, link: &Link) -> [Point; 2] {
        let (from, to) = (self.rows[self.depths[link.from]], self.rows[self.depths[link.to]]);
        let clear = |node: Node| if node < MODELS { 0.0 } else { CLEAR };
        [
            at(self.middles[link.from] + link.leaves, from.1 + clear(link.from)),
            at(self.middles[link.to] + link.enters, to.0 - clear(link.to)),
        ]
    }
}

/// Without the points at which a line goes straight on.
fn turns(points: &[Point]) -> Vec<Point> {
    let slant = |from: Point, to: Point| (to.x - from.x) / (to.y - from.y);
    let turn = |three: &[Point]| (slant(three[0], three[1]) != slant(three[1], three[2])).then_some(three[1]);
    let (first, last) = (points.iter().take(1), points.iter().skip(1).last());
    first.copied().chain(points.windows(3).filter_map(turn)).chain(last.copied()).collect()
}

#[cfg(test)]
mod tests {
    use super::*;

    #[test]
    fn a_line_has_points_where_it_turns_alone() {
        let line = [at(0.0, 0.0), at(0.0, 2.0), at(0.0, 4.0), at(3.0, 6.0)];
        assert_eq!(turns(&line), [line[0], line[2], line[3]]);
        assert_eq!(turns(&line[..2]), line[..2]);
    }
}
