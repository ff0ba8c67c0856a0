//! Lines from point to point.

use crate::drawing::svg::{at, steps, Point};

/// How round a line turns.
const ROUND: f64 = 6.0;

/// Through these points, with round turns, by which a turn can be told from a crossing.
pub fn rounded(points: &[Point]) -> String {
    let mut parts = vec![("M", vec![points[0]])];
    for turn in points.windows(3) {
        let round = ROUND.min(distance(turn[0], turn[1]) / 2.0).min(distance(turn[1], turn[2]) / 2.0);
        parts.push(("L", vec![toward(turn[1], turn[0], round)]));
        parts.push(("Q", vec![turn[1], toward(turn[1], turn[2], round)]));
    }
    parts.push(("L", vec![points[points.len() - 1]]));
    let parts: Vec<(&str, &[Point])> = parts.iter().map(|(letter, points)| (*letter, &points[..])).collect();
    steps(&parts)
}

pub fn straight(from: Point, to: Point) -> String {
    steps(&[("M", &[from]), ("L", &[to])])
}

/// By a square root, which asks nothing of libm: its `hypot` would need a newer one than all else here.
fn distance(one: Point, other: Point) -> f64 {
    let (x, y) = (one.x - other.x, one.y - other.y);
    (x * x + y * y).sqrt()
}

/// So far from one point towards another.
fn toward(from: Point, to: Point, far: f64) -> Point {
    let part = if far == 0.0 { 0.0 } else { far / distance(from, to) };
    at(from.x + part * (to.x - from.x), from.y + part * (to.y - from.y))
}
