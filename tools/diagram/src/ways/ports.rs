//! Where arrows leave and enter marks.

use crate::layout::across::Span;
use crate::layout::scale::Scale;
use crate::part::PerEvent;
use crate::sight::{Arrow, Says};
use std::cmp::Ordering;

#[derive(Clone, Copy, Debug, PartialEq, Eq, PartialOrd, Ord)]
pub enum Side {
    Top,
    Bottom,
}

/// Both ends of an arrow: a side of a mark, and where on it.
#[derive(Clone, Copy, Debug)]
pub struct Ports {
    pub leaves: (Side, f64),
    pub enters: (Side, f64),
}

impl Ports {
    /// Arrows leave a side of a mark at one point and enter it at one point for each head, so that lines that meet
    /// come from one event or lead to one. An arrow of a break has points of its own.
    pub fn new(arrow: &Arrow, spans: &PerEvent<Span>, rows: &PerEvent<usize>, scale: &Scale) -> Ports {
        let (leaving, entering) = sides(rows[arrow.from], rows[arrow.to]);
        let leaves = place(&spans[arrow.from], leaving_part(arrow.says), leaving, scale);
        let enters = place(&spans[arrow.to], entering_part(arrow.says), entering, scale);
        Ports { leaves: (leaving, leaves), enters: (entering, enters) }
    }
}

/// Within a row arrows run above the marks.
fn sides(from: usize, to: usize) -> (Side, Side) {
    match from.cmp(&to) {
        Ordering::Less => (Side::Bottom, Side::Top),
        Ordering::Equal => (Side::Top, Side::Top),
        Ordering::Greater => (Side::Top, Side::Bottom),
    }
}

/// Where on a mark's side arrows leave, as a part of its width. All these places are at least `apart` from each other.
fn leaving_part(says: Says) -> f64 {
    match says.is_of_break() {
        true => 0.83,
        false => 0.66,
    }
}

fn entering_part(says: Says) -> f64 {
    match says {
        Says::SeesAll => 0.15,
        Says::SeesAlone => 0.32,
        _ => 0.49,
    }
}

/// Lines over marks and lines under marks have places of their own, so that none between two rows hides another.
fn place(span: &Span, part: f64, side: Side, scale: &Scale) -> f64 {
    let offset = if side == Side::Top { 0.5 } else { 0.0 };
    let x = span.left + part * (span.right - span.left);
    ((x / scale.apart - offset).round() + offset) * scale.apart
}

#[cfg(test)]
mod tests {
    use super::*;

    fn spans(width: f64) -> impl Iterator<Item = Span> {
        (0..200).map(|step| 0.37 * f64::from(step)).map(move |left| Span { left, right: left + width, until: 0.0 })
    }

    #[test]
    fn lines_over_marks_and_under_marks_are_apart() {
        let scale = Scale::of(30);
        for span in spans(40.0) {
            let (over, under) = (place(&span, 0.5, Side::Top, &scale), place(&span, 0.5, Side::Bottom, &scale));
            assert!((over - under).abs() > 0.9 * scale.apart / 2.0);
            assert!((over - span.left - 20.0).abs() <= scale.apart / 2.0);
        }
    }

    #[test]
    fn all_lines_at_one_side_of_the_narrowest_mark_are_apart_and_on_it() {
        for scale in [20, 80, 384].map(Scale::of) {
            for span in spans(scale.width("R 0→?")) {
                let parts = [Says::SeesAll, Says::SeesAlone, Says::Unseen].map(entering_part);
                let parts = [&parts[..], &[Says::SeesAll, Says::Unseen].map(leaving_part)].concat();
                let places: Vec<f64> = parts.iter().map(|&part| place(&span, part, Side::Top, &scale)).collect();
                assert!(places.windows(2).all(|pair| pair[1] - pair[0] > 0.9 * scale.apart));
                assert!(span.left < places[0] && places[4] < span.right);
            }
        }
    }
}
