//! A break in words: what breaks, why that is a break, and each event on the way.

mod breach;
mod chain;
mod due;
mod happened;
mod way;

pub use breach::Breach;
pub use chain::{By, Step};
pub use way::Way;

use crate::finding::{Breaks, Finding};
use crate::record::Record;
use gcr::Refusal;

/// What there is to tell of a record.
#[derive(Clone, Debug, PartialEq, Eq)]
pub struct Explanation {
    /// Lines, with an empty one between two breaks.
    pub text: String,
    /// Whether a break is told.
    pub is_broken: bool,
}

/// Tells the breaks of a record. Of each there is the verdict, a sentence that says what breaks in terms of what the
/// record says, and a line for each event of the way.
///
/// # Errors
///
/// By 3 to 10, where the record does not pass its questions.
pub fn explain(name: &str, bytes: &[u8], breaks: &Breaks) -> Result<Explanation, Refusal> {
    let record = Record::read(bytes)?;
    let findings = breaks.judge(bytes)?;
    let is_broken = findings.iter().any(|finding| finding.broken.is_some());
    let told: Vec<String> = findings.iter().map(|finding| text(name, &record, finding)).collect();
    let text = match breaks {
        Breaks::All if told.is_empty() => met(name, "all predicates are met"),
        _ => told.join("\n"),
    };
    Ok(Explanation { text, is_broken })
}

fn text(name: &str, record: &Record, finding: &Finding) -> String {
    let verdict = finding.verdict();
    let Some(broken) = &finding.broken else { return met(name, &verdict) };
    let breach = Breach::new(record, broken);
    let events: String = Way { record, broken, breach: &breach }.lines().map(|line| format!("  {line}\n")).collect();
    format!("{name}: {verdict}\n{}\n{}{events}", breach.sentence(), clocks(record))
}

fn met(name: &str, verdict: &str) -> String {
    format!("{name}: {verdict}: there is nothing to explain\n")
}

/// Two sites' times are not to be compared as they stand.
fn clocks(record: &Record) -> String {
    match record.difference {
        0 => String::new(),
        most => format!("times are by each site's own clock, and clocks may differ by {most} ms\n"),
    }
}
