//! The marks of events.

use crate::drawing::badge::badge;
use crate::drawing::frame::Frame;
use crate::drawing::svg::{at, Svg};
use crate::layout::scale::Scale;
use crate::layout::Mark;
use crate::record::Event;

/// What is drawn at a mark.
pub struct Shown<'a> {
    pub event: &'a Event,
    pub number: usize,
    /// All that the record says of it.
    pub details: String,
}

pub fn draw(svg: &mut Svg, shown: &Shown, mark: &Mark, scale: &Scale) {
    svg.open_event(&class(shown.event), shown.number, &shown.details);
    time(svg, shown.event, mark);
    svg.rectangle("body", mark.frame.upper_left(), mark.frame.lower_right(), round(shown.event, scale));
    match scale.is_labelled {
        true => labelled(svg, shown, &mark.frame, scale),
        false => numbered(svg, shown, &mark.frame, scale),
    }
    svg.close();
}

fn class(event: &Event) -> String {
    let kind = if event.is_write { "write" } else { "read" };
    format!("{kind}{}", if event.is_pending() { " pending" } else { "" })
}

/// Writes have corners and reads are round, so that they stay apart in any colour.
fn round(event: &Event, scale: &Scale) -> f64 {
    match event.is_write {
        true => 2.0,
        false => scale.height / 2.0,
    }
}

/// Behind a mark: the mark itself stays as it is, so that a write can still be told from a read.
pub fn ring(svg: &mut Svg, class: &str, event: &Event, mark: &Mark, scale: &Scale) {
    let by = scale.beside_mark();
    let frame = mark.frame.grown(by);
    svg.rectangle(class, frame.upper_left(), frame.lower_right(), round(event, scale) + by);
}

/// The line after a mark, to the event's return.
fn time(svg: &mut Svg, event: &Event, mark: &Mark) {
    let (right, middle) = (mark.frame.right, mark.frame.middle());
    if mark.until > right {
        svg.line("until", at(right, middle), at(mark.until, middle));
    }
    if mark.until > right && !event.is_pending() {
        svg.line("return", at(mark.until, middle - 5.0), at(mark.until, middle + 5.0));
    }
}

/// The event's number in a part of its own, and beside it what it is, over its place in arbitration.
fn labelled(svg: &mut Svg, shown: &Shown, frame: &Frame, scale: &Scale) {
    svg.path("badge", &badge(frame, round(shown.event, scale), scale.badge));
    let number = at(frame.left + scale.badge * 0.53, frame.middle() + scale.font * 0.33);
    svg.centred("number", number, scale.font * 0.86, &shown.number.to_string());
    let centre = (frame.left + scale.badge + frame.right) / 2.0;
    svg.centred("label", at(centre, frame.middle() - scale.font * 0.07), scale.font, &shown.event.label());
    let place = at(centre, frame.middle() + scale.font * 0.86);
    svg.centred("place", place, scale.font * 0.76, &format!("ar {}", shown.event.position));
}

/// Without room for a label there is only the number.
fn numbered(svg: &mut Svg, shown: &Shown, frame: &Frame, scale: &Scale) {
    let place = at((frame.left + frame.right) / 2.0, frame.middle() + scale.font * 0.36);
    svg.centred("number", place, scale.font, &shown.number.to_string());
}
