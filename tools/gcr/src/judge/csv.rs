//! Rows for each record: one for each model or predicate that it was judged by, or one that says why it was not.

use super::found::{Found, Judged, Outcome};
use super::verdicts::Verdict;
use diagram::Break;

pub const HEAD: &str = "record,status,events,kind,number,name,verdict,by_number,by_name,a,b,refusal,place,message\n";

pub fn rows(found: &Found) -> String {
    let (record, status) = (cell(found.record), found.status());
    let row = |rest: String| format!("{record},{status},{rest}\n");
    match &found.outcome {
        Outcome::Judged(Judged { events, verdicts }) => {
            verdicts.iter().map(|each| row(format!("{events},{}", verdict(each)))).collect()
        }
        Outcome::Refused(refusal) => {
            let (number, place, sentence) = (refusal.number, refusal.place, cell(refusal.sentence()));
            row(format!(",,,,,,,,,{number},{place},{sentence}"))
        }
        Outcome::Unread(why) => row(format!(",,,,,,,,,,,{}", cell(why))),
    }
}

fn verdict(Verdict { question, broken, .. }: &Verdict) -> String {
    let asked = format!("{},{},{}", question.kind(), question.number(), question.name());
    match broken {
        None => format!("{asked},met,,,,,,,"),
        Some(Break { by, a, b }) => format!("{asked},broken,{},{by},{a},{b},,,", by.number()),
    }
}

/// In quotes where it has what separates cells or rows.
fn cell(text: &str) -> String {
    match text.contains([',', '"', '\n', '\r']) {
        true => format!("\"{}\"", text.replace('"', "\"\"")),
        false => text.to_string(),
    }
}

#[cfg(test)]
mod tests {
    use super::cell;

    #[test]
    fn cells_are_quoted_where_they_have_to_be() {
        assert_eq!(cell("day 3.gcr"), "day 3.gcr");
        assert_eq!(cell("a,b \"c\""), "\"a,b \"\"c\"\"\"");
    }
}
