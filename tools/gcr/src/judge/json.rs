//! An object for each record, a line each. Every object has the same keys.

use super::found::{Found, Outcome};
use super::verdicts::Verdict;
use diagram::Break;
use gcr::{Event, Kind};

pub fn line(found: &Found) -> String {
    let (mut events, mut verdicts, mut refusal, mut error) = (null(), String::new(), null(), null());
    match &found.outcome {
        Outcome::Judged(judged) => {
            events = judged.events.to_string();
            verdicts = judged.verdicts.iter().map(verdict).collect::<Vec<_>>().join(",");
        }
        Outcome::Refused(refused) => {
            let (number, place, sentence) = (refused.number, refused.place, string(refused.sentence()));
            refusal = format!(r#"{{"number":{number},"place":{place},"sentence":{sentence}}}"#);
        }
        Outcome::Unread(why) => error = string(why),
    }
    let (record, status) = (string(found.record), string(found.status()));
    let found = format!(r#""record":{record},"status":{status},"events":{events},"verdicts":[{verdicts}]"#);
    format!("{{{found},\"refusal\":{refusal},\"error\":{error}}}\n")
}

fn verdict(Verdict { question, broken, way }: &Verdict) -> String {
    let (kind, name) = (string(question.kind()), string(question.name()));
    let (status, by, a, b) = match broken {
        None => ("met", null(), null(), null()),
        Some(Break { by, a, b }) => {
            let by = format!(r#"{{"number":{},"name":{}}}"#, by.number(), string(by.name()));
            ("broken", by, a.to_string(), b.to_string())
        }
    };
    let number = question.number();
    let found =
        format!(r#""kind":{kind},"number":{number},"name":{name},"status":"{status}","by":{by},"a":{a},"b":{b}"#);
    let (event_a, event_b) = (way.first().map_or_else(null, event), way.last().map_or_else(null, event));
    let way: Vec<String> = way.iter().map(event).collect();
    format!(r#"{{{found},"event_a":{event_a},"event_b":{event_b},"way":[{}]}}"#, way.join(","))
}

/// What the record says of it, by its number.
fn event((number, event): &(u16, Event)) -> String {
    let kind = match event.kind {
        Kind::Read => "read",
        Kind::Write => "write",
    };
    let (site, object, start) = (event.site, event.object, event.start);
    let value = event.value.map_or_else(null, |value| value.to_string());
    let end = event.end.map_or_else(null, |end| end.to_string());
    let who = format!(r#""event":{number},"site":{site},"object":{object},"kind":"{kind}""#);
    format!(r#"{{{who},"value":{value},"start":{start},"return":{end}}}"#)
}

fn null() -> String {
    "null".to_string()
}

/// In quotes, with what JSON asks to be written otherwise.
fn string(text: &str) -> String {
    let letter = |letter: char| match letter {
        '"' | '\\' => format!("\\{letter}"),
        control if control < ' ' => format!("\\u{:04x}", control as u32),
        other => other.to_string(),
    };
    format!("\"{}\"", text.chars().map(letter).collect::<String>())
}

#[cfg(test)]
mod tests {
    use super::string;

    #[test]
    fn strings_are_quoted_as_json_has_them() {
        assert_eq!(string("a \"b\" \\ \n\u{1f} ä"), r#""a \"b\" \\ \u000a\u001f ä""#);
    }
}
