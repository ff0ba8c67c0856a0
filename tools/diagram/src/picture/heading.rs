//! What the picture says in words, above the sites.

use crate::drawing::letters::{bold_width, text_width};
use crate::drawing::page::MARGIN;
use crate::drawing::svg::{at, Svg};
use crate::drawing::wrap::wrapped;
use crate::finding::Finding;
use crate::part::Drawn;
use crate::telling::Breach;

/// Of a longer way than twice this only so many events at each end are told.
const ENDS: usize = 4;

struct Line {
    class: &'static str,
    size: f64,
    /// From the line before to this one.
    step: f64,
    text: String,
}

pub struct Heading {
    title: String,
    lines: Vec<Line>,
}

/// What is told.
pub struct Told<'a> {
    pub name: &'a str,
    pub drawn: &'a Drawn<'a>,
    pub finding: Option<&'a Finding>,
    pub breach: Option<&'a Breach>,
    /// The events of the break in words.
    pub events: &'a [String],
}

impl Told<'_> {
    /// How much is drawn, and the verdict where something was asked.
    pub fn in_short(&self) -> String {
        let verdict = self.finding.map_or(String::new(), |finding| format!("; {}", finding.verdict()));
        format!("{}{verdict}", self.much())
    }

    /// `3 events at 2 sites`, and whether their clocks may differ.
    fn much(&self) -> String {
        let record = self.drawn.record;
        let events = counted(self.drawn.numbers.len(), record.events.len(), "event");
        let sites = counted(self.drawn.sites.len(), record.sites, "site");
        let clocks = match record.difference {
            0 => String::new(),
            difference => format!(", clocks may differ by {difference} ms"),
        };
        format!("{events} at {sites}{clocks}")
    }

    fn title(&self) -> String {
        format!("{}: {}", self.name, self.much())
    }
}

impl Heading {
    /// No line is longer than the picture is wide.
    pub fn new(told: &Told, width: f64) -> Heading {
        let mut heading = Heading { title: told.title(), lines: Vec::new() };
        let most = width - 2.0 * MARGIN;
        heading.add("title", &told.title(), most);
        if let Some(finding) = told.finding {
            heading.add(if finding.broken.is_some() { "broken" } else { "met" }, &finding.verdict(), most);
            told.breach.iter().for_each(|breach| heading.add("reason", &breach.sentence(), most));
            finding.sentences.iter().for_each(|sentence| heading.add("sentence", sentence, most));
            shortened(told.events).iter().for_each(|line| heading.add("event", line, most));
        }
        heading
    }

    fn add(&mut self, class: &'static str, text: &str, most: f64) {
        let (size, first) = match class {
            "title" => (20.0, 40.0),
            "met" | "broken" => (16.0, 30.0),
            "reason" => (15.0, 24.0),
            _ => (13.0, 21.0),
        };
        let is_bold = matches!(class, "title" | "met" | "broken");
        let width = |line: &str| if is_bold { bold_width(line, size) } else { text_width(line, size) };
        for (index, text) in wrapped(text, most, width).into_iter().enumerate() {
            let step = if index == 0 { first } else { 1.3 * size };
            self.lines.push(Line { class, size, step, text });
        }
    }

    pub fn title(&self) -> &str {
        &self.title
    }

    /// Where the sites begin.
    pub fn bottom(&self) -> f64 {
        self.lines.iter().map(|line| line.step).sum::<f64>() + 24.0
    }

    pub fn draw(&self, svg: &mut Svg) {
        let mut base = 0.0;
        for line in &self.lines {
            base += line.step;
            svg.text(line.class, at(MARGIN, base), line.size, &line.text);
        }
    }
}

/// Of a long way only some events from both ends; pointing at its steps tells the others.
fn shortened(events: &[String]) -> Vec<String> {
    let left_out = events.len().saturating_sub(2 * ENDS);
    if left_out < 2 {
        return events.to_vec();
    }
    let between = format!("({left_out} more events on the way: point at a step for its event)");
    [&events[..ENDS], &[between], &events[events.len() - ENDS..]].concat()
}

/// `3 events`, or `17 of 384 events` where some are left out.
fn counted(drawn: usize, all: usize, what: &str) -> String {
    let part = if drawn < all { format!("{drawn} of ") } else { String::new() };
    format!("{part}{all} {what}{}", if all == 1 { "" } else { "s" })
}
