//! Rectangles and straight lines.

#[derive(Clone, Copy, Debug)]
pub struct Frame {
    pub left: f64,
    pub top: f64,
    pub right: f64,
    pub bottom: f64,
}

pub type Point = (f64, f64);

impl Frame {
    pub fn overlaps(&self, other: &Frame) -> bool {
        let across = self.left < other.right && other.left < self.right;
        across && self.top < other.bottom && other.top < self.bottom
    }

    pub fn holds(&self, inner: &Frame) -> bool {
        let across = self.left <= inner.left && inner.right <= self.right;
        across && self.top <= inner.top && inner.bottom <= self.bottom
    }

    pub fn shrunk(&self, by: f64) -> Frame {
        Frame { left: self.left + by, top: self.top + by, right: self.right - by, bottom: self.bottom - by }
    }

    /// Whether a straight line runs through it: neither beside it as a whole, nor with all its corners on one side.
    pub fn is_crossed(&self, (from, to): (Point, Point)) -> bool {
        let (left, right) = (from.0.min(to.0), from.0.max(to.0));
        let (top, bottom) = (from.1.min(to.1), from.1.max(to.1));
        let corners =
            [(self.left, self.top), (self.right, self.top), (self.left, self.bottom), (self.right, self.bottom)];
        let side = |(x, y): Point| (to.0 - from.0) * (y - from.1) - (to.1 - from.1) * (x - from.0);
        let is_beside = right <= self.left || self.right <= left || bottom <= self.top || self.bottom <= top;
        let is_one_side =
            corners.iter().all(|&corner| side(corner) >= 0.0) || corners.iter().all(|&corner| side(corner) <= 0.0);
        !is_beside && !is_one_side
    }
}
