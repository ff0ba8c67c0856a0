//! What the signs mean.

use super::lines::strokes;
use super::signs::cross;
use crate::drawing::letters::text_width;
use crate::drawing::page::MARGIN;
use crate::drawing::strokes::straight;
use crate::drawing::svg::{at, Point, Svg};
use crate::drawing::wrap::wrapped;
use crate::layout::scale::Scale;
use crate::sight::Says;

const FONT: f64 = 12.0;
const SIGN: f64 = 34.0;
/// From one line of signs to the next, and from one line of words to the next.
const STEP: f64 = 24.0;
const WORDS: f64 = 18.0;

const SIGHT: &str = "An arrow leads from an event to one that sees it.";
const UNTOLD: &str = "What the arrows do not tell is not seen, at an event's own site either;";
/// The same where some events are not drawn.
const UNTOLD_OF_DRAWN: &str =
    "A drawn event sees another drawn one only where the arrows tell so, at its own site too;";
const TOLD: &str = "what a filled head tells needs no arrow of its own.";
/// Of a read's label.
pub const OPENING: &str =
    "(opening): the read sees no write on its object and holds the object's opening, the figure that it starts with.";
/// Of the way from one event of a breaking pair to the other.
pub const WAY: &str = "The way goes along arrows, to an event that sees the one before, and along a site's line, to a \
    later event of the site; a mark without a ring that it passes behind is no part of it. A number over a mark is that of \
    the step to it.";
const SHARED: &str = "Arrows from one event, or to one, may share a line; lines that cross have nothing in common.";

#[derive(Clone, Copy, Debug, PartialEq, Eq)]
pub enum Sign {
    Write,
    Read,
    Pending,
    Return,
    Gap,
    Pair,
    Named,
    /// An event between the pair's two on the way.
    OnWay,
    Step,
    Arrow(Says),
    /// The same where some events are not drawn.
    OfDrawn(Says),
}

pub struct Legend {
    signs: Vec<(Sign, Point)>,
    notes: Vec<(String, Point)>,
    pub height: f64,
}

impl Legend {
    /// As many signs on a line as it has room for.
    pub fn new(signs: &[Sign], words: &[String], width: f64) -> Legend {
        let mut legend = Legend { signs: Vec::new(), notes: Vec::new(), height: 0.0 };
        let (most, mut place) = (width - MARGIN, at(MARGIN, STEP));
        for &sign in signs {
            let step = SIGN + 8.0 + text_width(meaning(sign), FONT);
            if place.x > MARGIN && place.x + step > most {
                place = at(MARGIN, place.y + STEP);
            }
            legend.signs.push((sign, place));
            place.x += step + 18.0;
        }
        place.y += STEP - WORDS;
        let lines = words.iter().flat_map(|words| wrapped(words, most - MARGIN, |line| text_width(line, FONT)));
        for line in lines {
            place = at(MARGIN, place.y + WORDS);
            legend.notes.push((line, place));
        }
        legend.height = place.y + STEP;
        legend
    }

    pub fn draw(&self, svg: &mut Svg, top: f64) {
        for &(sign, place) in &self.signs {
            let place = at(place.x, top + place.y);
            draw(svg, sign, place);
            svg.text("note", at(place.x + SIGN + 8.0, place.y + FONT * 0.36), FONT, meaning(sign));
        }
        for (words, place) in &self.notes {
            svg.text("note", at(place.x, top + place.y + FONT * 0.36), FONT, words);
        }
    }
}

/// What arrows tell; some may share their lines.
pub fn of_arrows(is_part: bool, is_shared: bool) -> String {
    let untold = if is_part { UNTOLD_OF_DRAWN } else { UNTOLD };
    let shared = is_shared.then_some(SHARED);
    [SIGHT, untold, TOLD].into_iter().chain(shared).collect::<Vec<_>>().join(" ")
}

/// Where only a part is drawn: that, and what it means for arrows.
pub fn of_part(drawn: usize, all: usize) -> String {
    let left_out = all - drawn;
    let are = if left_out == 1 { "is" } else { "are" };
    format!(
        "Of {all} events {left_out} {are} left out here. Arrows and lines speak of drawn events only: a filled head says that \
         an event sees the one at the tail and all drawn events that that one sees."
    )
}

/// What the numbers and times are.
pub fn of_numbers(scale: &Scale, base: u64) -> String {
    let number = match scale.is_labelled {
        true => "The number in a mark is the event's; ar is its place in arbitration.",
        false => "The number in a mark is the event's.",
    };
    let after = if base == 0 { String::new() } else { format!(" after {base}") };
    format!("{number} Times are in ms{after}, in order but not to scale. Point at a mark for all of its event.")
}

/// What times tell where clocks may differ.
pub fn of_clocks(difference: u32) -> String {
    format!(
        "Times are by each site's own clock. An event returned before one of another site started only where more than \
         {difference} ms lie between its return and that start."
    )
}

fn meaning(sign: Sign) -> &'static str {
    match sign {
        Sign::Write => "write",
        Sign::Read => "read",
        Sign::Pending => "pending",
        Sign::Return => "lasts until its return",
        Sign::Gap => "later at its site, but does not see it",
        Sign::Pair => "breaking pair",
        Sign::Named => "named above",
        Sign::OnWay => "on the way",
        Sign::Step => "step of the way from the pair's first event to its second",
        Sign::OfDrawn(Says::SeesAll) => "sees it and all drawn events that it sees",
        Sign::OfDrawn(Says::SeesAlone) => "sees it, but not all drawn events that it sees",
        Sign::Arrow(Says::SeesAll) => "sees it and all that it sees",
        Sign::Arrow(Says::SeesAlone) => "sees it, but not all that it sees",
        Sign::Arrow(Says::Sees) | Sign::OfDrawn(Says::Sees) => "sees it",
        Sign::Arrow(Says::Unseen) | Sign::OfDrawn(Says::Unseen) => "missing: does not see it",
        Sign::Arrow(Says::Placed) | Sign::OfDrawn(Says::Placed) => "from the earlier to the later in arbitration",
        Sign::Arrow(Says::Unplaced) | Sign::OfDrawn(Says::Unplaced) => "missing: is not before itself in arbitration",
    }
}

fn draw(svg: &mut Svg, sign: Sign, place: Point) {
    let (right, half) = (at(place.x + SIGN, place.y), at(place.x + SIGN / 2.0, place.y));
    match sign {
        Sign::Write => mark(svg, "write", place, right.x, 2.0),
        Sign::Read => mark(svg, "read", place, right.x, 8.0),
        Sign::Pending => pending(svg, place, half),
        Sign::Return => lasting(svg, place, half),
        Sign::Gap => {
            svg.path("gap", &straight(place, right));
            svg.path("strokes", &strokes(place, right));
        }
        Sign::Pair => svg.rectangle("ring pair", at(place.x, place.y - 8.0), at(right.x, place.y + 8.0), 5.0),
        Sign::Named | Sign::OnWay => {
            svg.rectangle("ring named", at(place.x, place.y - 8.0), at(right.x, place.y + 8.0), 5.0)
        }
        Sign::Step => svg.path("step", &straight(place, right)),
        Sign::Arrow(says) | Sign::OfDrawn(says) => {
            svg.path(says.class(), &straight(place, right));
            if says.is_missing() {
                svg.path("cross", &cross(half));
            }
        }
    }
}

fn mark(svg: &mut Svg, class: &str, place: Point, right: f64, round: f64) {
    svg.open(class);
    svg.rectangle("body", at(place.x, place.y - 8.0), at(right, place.y + 8.0), round);
    svg.close();
}

fn pending(svg: &mut Svg, place: Point, half: Point) {
    svg.open("read pending");
    svg.rectangle("body", at(place.x, place.y - 8.0), at(half.x, place.y + 8.0), 8.0);
    svg.line("until", half, at(place.x + SIGN, place.y));
    svg.close();
}

fn lasting(svg: &mut Svg, place: Point, half: Point) {
    svg.open("write");
    svg.rectangle("body", at(place.x, place.y - 8.0), at(half.x, place.y + 8.0), 2.0);
    svg.line("until", half, at(place.x + SIGN, place.y));
    svg.line("return", at(place.x + SIGN, place.y - 5.0), at(place.x + SIGN, place.y + 5.0));
    svg.close();
}
