//! A picture read back from its text.

use super::frame::{Frame, Point};
use super::letters::width;
use std::collections::{BTreeMap, HashMap};

#[derive(Clone, Debug)]
pub struct Element {
    pub name: String,
    pub attributes: HashMap<String, String>,
    pub text: String,
    /// The event in whose mark it stands, or the model in whose box.
    pub event: Option<usize>,
}

pub struct Drawing {
    pub elements: Vec<Element>,
}

impl Drawing {
    pub fn read(picture: &str) -> Drawing {
        let (mut elements, mut event): (Vec<Element>, Option<usize>) = (Vec::new(), None);
        for piece in picture.split('<').skip(1) {
            let (tag, text) = piece.split_once('>').expect("a tag ends");
            let attributes = attributes(tag);
            if tag == "/g" || tag.starts_with("g ") {
                let number = attributes.get("data-event").or(attributes.get("data-model"));
                event = number.map(|number| number.parse().expect("a number"));
            }
            let name = tag.split([' ', '/']).next().expect("a tag has a name").to_string();
            elements.push(Element { name, attributes, text: unescaped(text.trim_end()), event });
        }
        Drawing { elements }
    }

    pub fn named<'a>(&'a self, name: &'a str) -> impl Iterator<Item = &'a Element> {
        self.elements.iter().filter(move |element| element.name == name)
    }

    /// The texts of this class.
    pub fn texts(&self, class: &str) -> Vec<&str> {
        self.named("text").filter(|element| element.class() == class).map(|element| element.text.as_str()).collect()
    }

    /// A heading that may stand in several lines.
    pub fn joined(&self, class: &str) -> String {
        self.texts(class).join(" ")
    }

    pub fn size(&self) -> Frame {
        let svg = self.named("svg").next().expect("a picture is one");
        Frame { left: 0.0, top: 0.0, right: svg.number("width"), bottom: svg.number("height") }
    }

    /// The frame of each event's mark. No event has two.
    pub fn marks(&self) -> BTreeMap<usize, Frame> {
        let mut marks = BTreeMap::new();
        for element in self.named("rect").filter(|element| element.class() == "body") {
            let before = element.event.and_then(|event| marks.insert(event, element.frame()));
            assert!(before.is_none());
        }
        marks
    }

    /// The lines between two events, of any kind.
    pub fn arrows(&self) -> impl Iterator<Item = &Element> {
        self.between_events().filter(|path| !path.is_step())
    }

    /// The bands under the steps of a way, which may pass behind marks.
    pub fn steps(&self) -> Vec<&Element> {
        self.between_events().filter(|path| path.is_step()).collect()
    }

    fn between_events(&self) -> impl Iterator<Item = &Element> {
        self.named("path").filter(|path| path.attributes.contains_key("data-from"))
    }

    /// Where each event's time ends: at the end of the line after its mark, or of the mark where it has none.
    pub fn returns(&self) -> BTreeMap<usize, f64> {
        let mut ends: BTreeMap<usize, f64> = self.marks().iter().map(|(&event, mark)| (event, mark.right)).collect();
        for line in self.named("line").filter(|line| line.class() == "until") {
            ends.extend(line.event.map(|event| (event, line.number("x2"))));
        }
        ends
    }

    /// The ends of the lines whose class begins so.
    pub fn pairs(&self, class: &str) -> Vec<(usize, usize)> {
        self.arrows().filter(|path| path.class().starts_with(class)).map(Element::ends).collect()
    }
}

impl Element {
    pub fn class(&self) -> &str {
        self.attributes.get("class").map_or("", String::as_str)
    }

    fn is_step(&self) -> bool {
        self.class().starts_with("step")
    }

    fn number(&self, attribute: &str) -> f64 {
        self.attributes[attribute].parse().expect("a number")
    }

    /// Of a line between two events.
    pub fn ends(&self) -> (usize, usize) {
        (self.number("data-from") as usize, self.number("data-to") as usize)
    }

    /// Of a rectangle or a text.
    pub fn frame(&self) -> Frame {
        let (x, y) = (self.number("x"), self.number("y"));
        if self.name == "rect" {
            return Frame { left: x, top: y, right: x + self.number("width"), bottom: y + self.number("height") };
        }
        let size = self.number("font-size");
        let is_bold = ["title", "met", "broken", "site", "said"].contains(&self.class());
        let wide = width(&self.text, size, is_bold);
        let left = if self.attributes["text-anchor"] == "middle" { x - wide / 2.0 } else { x };
        Frame { left, top: y - 0.76 * size, right: left + wide, bottom: y + 0.24 * size }
    }

    /// A path as straight pieces, turns in some.
    pub fn pieces(&self) -> Vec<(Point, Point)> {
        let mut pieces = Vec::new();
        let (mut letter, mut here, mut through) = ('M', (0.0, 0.0), Vec::new());
        for word in self.attributes["d"].split(' ') {
            let first = word.chars().next().expect("a word");
            if first.is_alphabetic() {
                letter = first;
            }
            through.push(point(word.trim_start_matches(char::is_alphabetic)));
            if letter == 'Q' && through.len() == 1 {
                continue;
            }
            let steps = if letter == 'Q' { turn(here, through[0], through[1]) } else { through.clone() };
            for there in steps {
                pieces.extend((letter != 'M').then_some((here, there)));
                here = there;
            }
            through.clear();
        }
        pieces
    }
}

fn point(word: &str) -> Point {
    let (x, y) = word.split_once(',').expect("two numbers");
    (x.parse().expect("a number"), y.parse().expect("a number"))
}

fn turn(from: Point, by: Point, to: Point) -> Vec<Point> {
    let mix = |part: f64, a: f64, b: f64, c: f64| {
        (1.0 - part) * (1.0 - part) * a + 2.0 * part * (1.0 - part) * b + part * part * c
    };
    let at = |step: usize| f64::from(step as u32) / 6.0;
    (1..=6).map(|step| (mix(at(step), from.0, by.0, to.0), mix(at(step), from.1, by.1, to.1))).collect()
}

fn attributes(tag: &str) -> HashMap<String, String> {
    let quoted: Vec<&str> = tag.split('"').collect();
    let pairs = quoted.chunks_exact(2).map(|pair| (pair[0].trim_matches([' ', '=', '/']), pair[1]));
    let name = |before: &str| before.rsplit(' ').next().unwrap_or(before).to_string();
    pairs.map(|(before, value)| (name(before), value.to_string())).collect()
}

fn unescaped(text: &str) -> String {
    text.replace("&lt;", "<").replace("&gt;", ">").replace("&amp;", "&")
}
