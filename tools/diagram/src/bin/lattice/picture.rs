//! The whole picture, from back to front.

use crate::boxes;
use crate::claim::MODELS;
use crate::layout::Layout;
use crate::table::Table;
use diagram::drawing::page::{MARGIN, STYLE};
use diagram::drawing::strokes::rounded;
use diagram::drawing::svg::{at, Svg};

const TITLE: &str = "Which model covers which";
const CAPTION: &str = "A model covers those that lines lead down to from it, and no other.";

const RULES: &str = "\
.model .body { fill: #ffffff; stroke: #0072b2; stroke-width: 1.5; }
.model .badge { fill: #d6e7f2; }
.covers { fill: none; stroke: #566573; stroke-width: 1.6; }
.covers:hover { stroke-width: 3; }
";

/// Where the band behind boxes and lines begins, and how far it goes over and under them.
const BAND: f64 = 64.0;
const WITHIN: f64 = 24.0;
/// From the band to the base of the caption, and from there to the end.
const BELOW: f64 = 30.0;
const END: f64 = 22.0;

pub fn draw(table: &Table) -> String {
    let layout = Layout::new(table, BAND + WITHIN);
    let (width, bottom) = (layout.width, layout.bottom + WITHIN);
    let height = bottom + BELOW + END;
    let mut svg = Svg::default();
    svg.describe(&(0..MODELS).map(|model| table.words(model)).collect::<Vec<_>>().join(" "));
    svg.raw(&format!("<style>\n{STYLE}{RULES}</style>"));
    svg.rectangle("paper", at(0.0, 0.0), at(width, height), 0.0);
    svg.text("title", at(MARGIN, 40.0), 20.0, TITLE);
    svg.rectangle("band", at(MARGIN / 2.0, BAND), at(width - MARGIN / 2.0, bottom), 8.0);
    lines(&mut svg, table, &layout);
    for (model, frame) in layout.boxes.iter().enumerate() {
        boxes::draw(&mut svg, frame, model + 1, &table.names[model], &table.words(model));
    }
    svg.text("sentence", at(MARGIN, bottom + BELOW), 13.0, CAPTION);
    svg.finish(width, height, TITLE)
}

fn lines(svg: &mut Svg, table: &Table, layout: &Layout) {
    for line in &layout.lines {
        let (first, second) = line.ends;
        let words = format!("{} covers {}", table.named(first), table.named(second));
        svg.between("covers", (first + 1, second + 1), &rounded(&line.points), &words);
    }
}
