//! The numbers of a way's steps, each over the mark that its step leads to.

use crate::drawing::frame::Frame;
use crate::drawing::letters::text_width;
use crate::drawing::svg::{at, Svg};
use crate::layout::Layout;
use crate::telling::Step;

/// Around a number, on its ground.
const BESIDE: f64 = 2.0;

pub struct Count {
    number: usize,
    size: f64,
    pub frame: Frame,
}

/// Beside the mark's upper left corner, over its ring: no arrow enters there.
pub fn counts(layout: &Layout, steps: &[Step]) -> Vec<Count> {
    let size = 0.86 * layout.scale.font;
    let count = |(number, step): (usize, &Step)| {
        let mark = &layout.marks[step.to].frame;
        let (right, bottom) = (mark.left, mark.top - layout.scale.beside_mark() - 1.0);
        let left = right - text_width(&number.to_string(), size) - 2.0 * BESIDE;
        Count { number, size, frame: Frame { left, top: bottom - size - 1.0, right, bottom } }
    };
    (1..).zip(steps).map(count).collect()
}

impl Count {
    /// On a ground of its own, so that what passes there does not seem to be the step.
    pub fn draw(&self, svg: &mut Svg) {
        let Frame { left, top, right, bottom } = self.frame;
        svg.rectangle("ground", at(left, top), at(right, bottom), 0.5 * (bottom - top).min(right - left));
        let base = at((self.frame.left + self.frame.right) / 2.0, self.frame.bottom - 0.24 * self.size);
        svg.centred("count", base, self.size, &self.number.to_string());
    }
}
