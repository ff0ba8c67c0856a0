//! Rectangles.

use crate::drawing::svg::{at, Point};

#[derive(Clone, Copy, Debug, PartialEq)]
pub struct Frame {
    pub left: f64,
    pub top: f64,
    pub right: f64,
    pub bottom: f64,
}

impl Frame {
    /// The height of its middle.
    pub fn middle(&self) -> f64 {
        (self.top + self.bottom) / 2.0
    }

    pub fn upper_left(&self) -> Point {
        at(self.left, self.top)
    }

    pub fn lower_right(&self) -> Point {
        at(self.right, self.bottom)
    }

    pub fn grown(&self, by: f64) -> Frame {
        Frame { left: self.left - by, top: self.top - by, right: self.right + by, bottom: self.bottom + by }
    }

    pub fn holds(&self, inner: &Frame) -> bool {
        let across = self.left <= inner.left && inner.right <= self.right;
        across && self.top <= inner.top && inner.bottom <= self.bottom
    }

    pub fn overlaps(&self, other: &Frame) -> bool {
        let across = self.left < other.right && other.left < self.right;
        across && self.top < other.bottom && other.top < self.bottom
    }

    /// Whether a straight line from one point to the other has a point inside.
    pub fn is_met(&self, from: Point, to: Point) -> bool {
        let across = inside(from.x, to.x, self.left, self.right);
        let down = inside(from.y, to.y, self.top, self.bottom);
        across.0.max(down.0) < across.1.min(down.1)
    }
}

/// The part of the way from one number to another, 0 to 1, that lies between two bounds.
fn inside(from: f64, to: f64, low: f64, high: f64) -> (f64, f64) {
    let step = to - from;
    if step == 0.0 {
        return if low < from && from < high { (0.0, 1.0) } else { (1.0, 0.0) };
    }
    let (enter, leave) = ((low - from) / step, (high - from) / step);
    (enter.min(leave).max(0.0), enter.max(leave).min(1.0))
}

#[cfg(test)]
mod tests {
    use super::*;

    const FRAME: Frame = Frame { left: 10.0, top: 10.0, right: 30.0, bottom: 20.0 };

    #[test]
    fn a_line_through_or_into_a_frame_meets_it() {
        assert!(FRAME.is_met(at(0.0, 0.0), at(40.0, 30.0)));
        assert!(FRAME.is_met(at(15.0, 0.0), at(15.0, 12.0)));
        assert!(FRAME.is_met(at(40.0, 15.0), at(0.0, 15.0)));
        assert!(FRAME.is_met(at(12.0, 12.0), at(13.0, 13.0)));
    }

    #[test]
    fn a_line_beside_a_frame_or_along_its_edge_does_not() {
        assert!(!FRAME.is_met(at(0.0, 0.0), at(8.0, 40.0)));
        assert!(!FRAME.is_met(at(0.0, 10.0), at(40.0, 10.0)));
        assert!(!FRAME.is_met(at(0.0, 24.0), at(40.0, 21.0)));
        assert!(!FRAME.is_met(at(31.0, 21.0), at(60.0, 0.0)));
    }
}
