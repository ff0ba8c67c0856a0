//! The sites' lines: from one event to the next of its lane.

use crate::drawing::strokes::straight;
use crate::drawing::svg::{at, steps, Point, Svg};
use crate::layout::across::LEFT;
use crate::layout::{Layout, Mark};
use crate::sight::Line;
use crate::sight::{Arrow, Says};

/// A site's line up to its first event and on after the last; between events there is only what `draw` says.
pub fn ends(svg: &mut Svg, layout: &Layout, end: f64) {
    for band in &layout.rows.bands {
        let marks: Vec<&Mark> =
            layout.marks.iter().map(|(_, mark)| mark).filter(|mark| mark.row == band.first).collect();
        let middle = layout.rows.rows[band.first].middle();
        let begin = LEFT - 14.0;
        let first = marks.iter().map(|mark| mark.frame.left).fold(end, f64::min);
        let last = marks.iter().map(|mark| mark.until).fold(first, f64::max);
        for (from, to) in [(begin, first), (last, end)].into_iter().filter(|(from, to)| from < to) {
            svg.line("time", at(from, middle), at(to, middle));
        }
    }
}

/// Whole where the later event sees the earlier, with the head that says how much of what that one sees; else broken.
pub fn draw(svg: &mut Svg, layout: &Layout, line: &Line, is_part: bool) {
    let (ends, (begin, end)) = ((line.from, line.to), span(layout, line.from, line.to));
    let words = Arrow::new(line.from, line.to, line.says.unwrap_or(Says::Unseen)).words(is_part);
    match line.says {
        Some(says) => svg.between(says.class(), ends, &straight(begin, end), &words),
        None => {
            svg.between("gap", ends, &straight(begin, end), &words);
            svg.path("strokes", &strokes(begin, end));
        }
    }
}

/// From where an event has returned to where a later one of its site begins.
pub fn span(layout: &Layout, from: usize, to: usize) -> (Point, Point) {
    let (first, second) = (&layout.marks[from], &layout.marks[to]);
    (at(first.until, first.frame.middle()), at(second.frame.left - 1.0, second.frame.middle()))
}

/// Two strokes across the middle of a line.
pub fn strokes(from: Point, to: Point) -> String {
    let (half, y) = ((from.x + to.x) / 2.0, from.y);
    let lean = ((to.x - from.x) / 7.0).min(2.0);
    let stroke = |x: f64| [at(x - lean, y + 6.0), at(x + lean, y - 6.0)];
    let ([a, b], [c, d]) = (stroke(half - 1.5 * lean), stroke(half + 1.5 * lean));
    steps(&[("M", &[a]), ("L", &[b]), ("M", &[c]), ("L", &[d])])
}
