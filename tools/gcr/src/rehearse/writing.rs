//! A script as text, with the answer of each call beside it: a script that is rehearsed to the same again.

use super::calls;
use super::rehearsal::Rehearsal;
use super::script::{Script, CALL};
use gcr::{Answer, Refusal};

/// Of a script that was rehearsed to this, whose record went to the file of this name, if it went to one.
pub fn written(script: &Script, rehearsal: &Rehearsal, record: Option<&str>) -> String {
    let calls: Vec<String> = script.calls.chunks_exact(CALL).map(calls::written).collect();
    let width = calls.iter().map(String::len).max().unwrap_or(0);
    let answered = |(call, answer): (&String, &Answer)| format!("{call:width$}  # {}\n", told(answer));
    let lines: String = calls.iter().zip(&rehearsal.answers).map(answered).collect();
    let to = record.map_or(String::new(), |name| format!(", written to {name}"));
    format!("{}\n{lines}# {}{to}\n", terms(script), total(rehearsal))
}

fn terms(script: &Script) -> String {
    let opening = |(object, value)| format!("open {object} {value}\n");
    let openings: String = script.opened().into_iter().map(opening).collect();
    format!("sites {}\n{openings}", script.sites)
}

fn told(answer: &Answer) -> String {
    match *answer {
        Answer::Put { event } => format!("event {event}"),
        Answer::Get { event, value: Some(value) } => format!("event {event}, found {value}"),
        Answer::Get { event, value: None } => format!("event {event}, found none"),
        Answer::Delivered => "delivered".to_string(),
        Answer::Closed { copies } => format!("{} delivered", counted(copies.into(), "copy", "copies")),
        Answer::Refused(refusal) => refused(refusal),
        _ => "done".to_string(), // of a later kind
    }
}

/// Without the place: no refusal of a rehearsal has one.
pub fn refused(refusal: Refusal) -> String {
    format!("refused {}: {}", refusal.number, refusal.sentence())
}

fn total(rehearsal: &Rehearsal) -> String {
    let (calls, refused) = (rehearsal.answers.len(), rehearsal.refused());
    format!(
        "{}: {} done, {refused} refused; {}; {} outstanding; a record of {} bytes",
        counted(calls as u64, "call", "calls"),
        calls - refused,
        counted(rehearsal.events() as u64, "event", "events"),
        counted(rehearsal.outstanding, "copy", "copies"),
        rehearsal.record.len(),
    )
}

fn counted(number: u64, one: &str, many: &str) -> String {
    format!("{number} {}", if number == 1 { one } else { many })
}
