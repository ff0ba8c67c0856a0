//! The part of a mark that has its number.

use crate::drawing::frame::Frame;
use crate::drawing::svg::{at, steps};

/// Its edge: like the mark on the left, straight on the right.
pub fn badge(frame: &Frame, round: f64, width: f64) -> String {
    let (left, top, bottom) = (frame.left, frame.top, frame.bottom);
    let edge = left + width;
    let line = steps(&[
        ("M", &[at(edge, top)]),
        ("L", &[at(left + round, top)]),
        ("Q", &[at(left, top), at(left, top + round)]),
        ("L", &[at(left, bottom - round)]),
        ("Q", &[at(left, bottom), at(left + round, bottom)]),
        ("L", &[at(edge, bottom)]),
    ]);
    line + "Z"
}
