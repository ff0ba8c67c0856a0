//! The way from one event of a breaking pair to the other: a band under each of its steps, the first step first.

use super::lines::span;
use crate::drawing::strokes::rounded;
use crate::drawing::svg::{at, Point, Svg};
use crate::layout::Layout;
use crate::sight::Arrow;
use crate::sight::Web;
use crate::telling::{By, Step};

/// `told` has a line for each event of the way, its first one too.
pub fn draw(svg: &mut Svg, layout: &Layout, web: &Web, steps: &[Step], told: &[String]) {
    for (number, step) in (1..).zip(steps) {
        let words = format!("step {number} of {}: {}", steps.len(), told[number]);
        svg.between(class(step), (step.from, step.to), &rounded(&points(layout, web, step)), &words);
    }
}

fn class(step: &Step) -> &'static str {
    match step.by {
        By::Sight => "step sees",
        By::SiteOrder => "step later",
    }
}

/// Under the arrow that tells of it, or along the site's line.
fn points(layout: &Layout, web: &Web, step: &Step) -> Vec<Point> {
    let tells = |arrow: &Arrow| (arrow.from, arrow.to) == (step.from, step.to) && !arrow.says.is_of_break();
    let arrow = web.arrows.iter().position(tells).filter(|_| step.by == By::Sight);
    arrow.map_or_else(|| along(layout, step), |arrow| layout.routes[arrow].points.clone())
}

/// Straight on in the lane of the first event, and just before the second one starts to that one's lane.
fn along(layout: &Layout, step: &Step) -> Vec<Point> {
    let (begin, end) = span(layout, step.from, step.to);
    let turn = end.x - layout.scale.gap / 2.0;
    match begin.y == end.y {
        true => vec![begin, end],
        false => vec![begin, at(turn, begin.y), at(turn, end.y), end],
    }
}
