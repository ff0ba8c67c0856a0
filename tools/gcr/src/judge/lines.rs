//! A line for each record.

use super::asked::Question;
use super::found::{Found, Judged, Outcome};
use super::verdicts::Verdict;
use crate::color::Colors;

pub fn line(found: &Found, colors: Colors) -> String {
    let told = match &found.outcome {
        Outcome::Judged(judged) => told(judged),
        Outcome::Refused(refusal) => refusal.to_string(),
        Outcome::Unread(why) => format!("not read: {why}"),
    };
    // what it came to, and after that why
    let (came_to, why) = told.split_at(told.find(':').unwrap_or(told.len()));
    format!("{}: {}{why}\n", found.record, colors.of(found.ending(), came_to))
}

/// `met`, or `broken: RVal at events 2 and 1, Causal by CausalVisibility at events 0 and 2`. A record without events
/// meets everything, and may be an export that failed.
fn told(judged: &Judged) -> String {
    let breaks: Vec<String> = judged.verdicts.iter().filter_map(broken).collect();
    match (breaks.is_empty(), judged.events) {
        (true, 0) => "met, without any event".to_string(),
        (true, _) => "met".to_string(),
        _ => format!("broken: {}", breaks.join(", ")),
    }
}

fn broken(verdict: &Verdict) -> Option<String> {
    let broken = verdict.broken?;
    let by = match verdict.question {
        Question::Model(_) => format!(" by {}", broken.by),
        Question::Predicate(_) => String::new(),
    };
    let events = diagram::events(broken.a.into(), broken.b.into());
    Some(format!("{}{by} at {events}", verdict.question.name()))
}
