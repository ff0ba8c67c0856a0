//! All arrows of a picture: what events see, and the break.

use super::arrows::arrows;
use super::{Arrow, Lanes, Says};
use crate::part::Drawn;
use crate::telling::Breach;

pub struct Web {
    pub lanes: Lanes,
    /// The lines from an event to the next of its lane.
    pub lines: Vec<Line>,
    /// All arrows beside the lines, those of the break last.
    pub arrows: Vec<Arrow>,
}

#[derive(Clone, Copy, Debug)]
pub struct Line {
    pub from: usize,
    pub to: usize,
    /// None where the second does not see the first.
    pub says: Option<Says>,
}

impl Web {
    pub fn new(drawn: &Drawn, breach: Option<&Breach>) -> Web {
        let lanes = Lanes::new(drawn.events());
        // a step of the way has an arrow also where others tell it
        let is_step = |a: usize, b: usize| breach.is_some_and(|breach| breach.has_sight(a, b));
        let before: Vec<Option<usize>> = drawn.record.numbers().map(|event| lanes.before(event)).collect();
        let seen = arrows(&|a, b| drawn.is_visible(a, b), &before, &is_step);
        let is_along = |arrow: &Arrow| before[arrow.to] == Some(arrow.from);
        let (along, mut beside): (Vec<Arrow>, Vec<Arrow>) = seen.into_iter().partition(is_along);
        beside.extend(breach.iter().flat_map(|breach| &breach.arrows));
        let line = |(to, before): (usize, &Option<usize>)| {
            let from = (*before)?;
            Some(Line { from, to, says: along.iter().find(|arrow| arrow.to == to).map(|arrow| arrow.says) })
        };
        let lines = before.iter().enumerate().filter_map(line).collect();
        Web { lanes, lines, arrows: beside }
    }
}
