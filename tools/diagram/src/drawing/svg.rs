//! Writing SVG.

use std::fmt::Write;

#[derive(Clone, Copy, Debug, PartialEq)]
pub struct Point {
    pub x: f64,
    pub y: f64,
}

pub fn at(x: f64, y: f64) -> Point {
    Point { x, y }
}

/// A number with at most one decimal.
pub fn short(number: f64) -> String {
    let rounded = (number * 10.0).round() / 10.0;
    format!("{rounded}")
}

/// XML has no control characters, and none of its own signs in text.
fn escaped(text: &str) -> String {
    let has_it = |letter: char| !letter.is_control() && !matches!(letter, '\u{fffe}' | '\u{ffff}');
    let text: String = text.chars().map(|letter| if has_it(letter) { letter } else { '\u{fffd}' }).collect();
    text.replace('&', "&amp;").replace('<', "&lt;").replace('>', "&gt;")
}

#[derive(Default)]
pub struct Svg {
    text: String,
}

impl Svg {
    pub fn raw(&mut self, line: &str) {
        self.text.push_str(line);
        self.text.push('\n');
    }

    /// What a screen reader may read after the title; before all that is drawn.
    pub fn describe(&mut self, words: &str) {
        self.raw(&format!("<desc>{}</desc>", escaped(words)));
    }

    pub fn open(&mut self, class: &str) {
        self.raw(&format!("<g class=\"{class}\">"));
    }

    /// A group that tells which event it shows, and all of it for a viewer to show on pointing at it.
    pub fn open_event(&mut self, class: &str, event: usize, title: &str) {
        self.open_of("event", class, event, title);
    }

    /// The same of a model.
    pub fn open_model(&mut self, class: &str, model: usize, title: &str) {
        self.open_of("model", class, model, title);
    }

    fn open_of(&mut self, kind: &str, class: &str, number: usize, title: &str) {
        self.raw(&format!("<g class=\"{class}\" data-{kind}=\"{number}\"><title>{}</title>", escaped(title)));
    }

    pub fn close(&mut self) {
        self.raw("</g>");
    }

    pub fn line(&mut self, class: &str, from: Point, to: Point) {
        let ends = [from.x, from.y, to.x, to.y].map(short);
        let [x1, y1, x2, y2] = ends;
        self.raw(&format!("<line class=\"{class}\" x1=\"{x1}\" y1=\"{y1}\" x2=\"{x2}\" y2=\"{y2}\"/>"));
    }

    /// A rectangle from its upper left to its lower right corner.
    pub fn rectangle(&mut self, class: &str, from: Point, to: Point, radius: f64) {
        let [x, y, width, height, rx] = [from.x, from.y, to.x - from.x, to.y - from.y, radius].map(short);
        let size = format!("width=\"{width}\" height=\"{height}\" rx=\"{rx}\"");
        self.raw(&format!("<rect class=\"{class}\" x=\"{x}\" y=\"{y}\" {size}/>"));
    }

    pub fn path(&mut self, class: &str, steps: &str) {
        self.raw(&format!("<path class=\"{class}\" d=\"{steps}\"/>"));
    }

    /// A path that tells between which events or models it runs, for whoever reads the picture by a program, and what it
    /// says, for a viewer to show on pointing at it.
    pub fn between(&mut self, class: &str, (from, to): (usize, usize), steps: &str, title: &str) {
        let path = format!("<path class=\"{class}\" data-from=\"{from}\" data-to=\"{to}\" d=\"{steps}\">");
        self.raw(&format!("{path}<title>{}</title></path>", escaped(title)));
    }

    pub fn text(&mut self, class: &str, place: Point, size: f64, text: &str) {
        self.anchored("start", class, place, size, text);
    }

    pub fn centred(&mut self, class: &str, place: Point, size: f64, text: &str) {
        self.anchored("middle", class, place, size, text);
    }

    fn anchored(&mut self, anchor: &str, class: &str, place: Point, size: f64, text: &str) {
        let [x, y, size] = [place.x, place.y, size].map(short);
        let (place, text) = (format!("x=\"{x}\" y=\"{y}\" text-anchor=\"{anchor}\""), escaped(text));
        self.raw(&format!("<text class=\"{class}\" {place} font-size=\"{size}\">{text}</text>"));
    }

    /// The whole picture, with the words that a screen reader reads.
    pub fn finish(self, width: f64, height: f64, title: &str) -> String {
        let [width, height] = [width, height].map(short);
        let mut all = String::new();
        let size = format!("width=\"{width}\" height=\"{height}\" viewBox=\"0 0 {width} {height}\"");
        let _ = writeln!(all, "<svg xmlns=\"http://www.w3.org/2000/svg\" {size} role=\"img\">");
        let _ = writeln!(all, "<title>{}</title>", escaped(title));
        all + &self.text + "</svg>\n"
    }
}

/// The steps of a path that goes through these points: a letter, then points.
pub fn steps(parts: &[(&str, &[Point])]) -> String {
    let points = |points: &[Point]| {
        points.iter().map(|point| format!("{},{}", short(point.x), short(point.y))).collect::<Vec<_>>().join(" ")
    };
    parts.iter().map(|(letter, through)| format!("{letter}{}", points(through))).collect::<Vec<_>>().join(" ")
}
