//! Counts what the explanations of 5 and 8 are like, and those that are one event.

use super::tally::Tally;
use crate::explain::Explanation;
use crate::predicates::Judged;
use crate::relations::Relations;

/// By how many events could stand between.
pub const ONE_MIDDLE: &str = "one middle event";
pub const SEVERAL_MIDDLES: &str = "several middle events";
/// The pair is an event twice: what it is seen by is so before it.
pub const ROUND_A_MIDDLE: &str = "a middle event, then a";
/// Lower ones that only look like it: a write, a read that is not so before c, one that does not see a.
pub const LOWER_WRITE: &str = "lower write between";
pub const LOWER_NOT_SO: &str = "lower read that sees a, not so";
pub const LOWER_NOT_SEEING: &str = "lower read, so, not seeing a";
/// Above both events of the pair.
pub const MIDDLE_ABOVE: &str = "middle event above both";
pub const MIDDLE_BELOW: &str = "middle event below both";

/// One event, which is another than a or is a.
pub const B_ALONE: &str = "b alone";
pub const A_AGAIN: &str = "a again";

/// Of 5 or 8.
pub fn middle(judged: &Judged, predicate: u32, explanation: &Explanation, tally: &mut Tally) {
    let Relations { so, vis, .. } = &judged.relations;
    let (a, middle, c) = (explanation.a, explanation.events[0], explanation.events[1]);
    let several = judged.middle_events(a, c).len() > 1;
    let mut sorts = vec![if several { SEVERAL_MIDDLES } else { ONE_MIDDLE }];
    let lower = |fits: &dyn Fn(usize) -> bool| (0..middle).any(|event| event != a && event != c && fits(event));
    let read = |event: usize| judged.events[event].is_read();
    sorts.extend((a == c).then_some(ROUND_A_MIDDLE));
    sorts.extend(lower(&|b| !read(b) && vis.has(a, b) && so.has(b, c)).then_some(LOWER_WRITE));
    sorts.extend(lower(&|b| read(b) && vis.has(a, b) && !so.has(b, c)).then_some(LOWER_NOT_SO));
    sorts.extend(lower(&|b| read(b) && !vis.has(a, b) && so.has(b, c)).then_some(LOWER_NOT_SEEING));
    sorts.extend((middle > a.max(c)).then_some(MIDDLE_ABOVE));
    sorts.extend((middle < a.min(c)).then_some(MIDDLE_BELOW));
    sorts.into_iter().for_each(|sort| tally.occurred(sort, predicate));
}

/// Of all but 5, 8, 10 and 11.
pub fn alone(predicate: u32, explanation: &Explanation, tally: &mut Tally) {
    let again = explanation.events == [explanation.a];
    tally.occurred(if again { A_AGAIN } else { B_ALONE }, predicate);
}
