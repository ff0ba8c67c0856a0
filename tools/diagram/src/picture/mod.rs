//! A record as a space-time diagram.

mod axis;
mod bands;
mod counts;
mod heading;
mod labels;
mod legend;
mod lines;
mod marks;
mod scene;
mod signs;
mod style;

use crate::drawing::svg::{at, Svg};
use crate::finding::Asked;
use crate::layout::across::Across;
use crate::layout::scale::Scale;
use crate::layout::Layout;
use crate::part::{Part, Undrawn};
use crate::record::Record;
use crate::sight::Web;
use crate::telling::{Breach, Way};
use heading::{Heading, Told};
use legend::Legend;
use scene::Scene;

/// A record as it is drawn.
#[derive(Clone, Debug, PartialEq, Eq)]
pub struct Picture {
    pub svg: String,
    /// What is drawn, in the heading's words: `3 events at 2 sites; model 4 Causal is met`.
    pub told: String,
}

/// Draws a record in SVG, or a part of it, with what is asked of it.
///
/// # Errors
///
/// By 3 to 10, where the record does not pass its questions; and where it does not have what the part names.
pub fn draw(name: &str, bytes: &[u8], asked: Asked, part: &Part) -> Result<Picture, Undrawn> {
    let record = Record::read(bytes)?;
    let finding = asked.judge(bytes)?;
    let broken = finding.as_ref().and_then(|finding| finding.broken.as_ref());
    let breach = broken.map(|broken| Breach::new(&record, broken));
    let way = broken.zip(breach.as_ref()).map(|(broken, breach)| Way { record: &record, broken, breach });
    let events: Vec<String> = way.iter().flat_map(Way::lines).collect();
    let drawn = part.of(&record, &breach.as_ref().map_or(Vec::new(), Breach::all))?;
    let told = Told { name, drawn: &drawn, finding: finding.as_ref(), breach: breach.as_ref(), events: &events };
    Ok(Picture { svg: svg(&told), told: told.in_short() })
}

fn svg(told: &Told) -> String {
    let Told { drawn, breach, events, .. } = *told;
    let scale = Scale::of(drawn.numbers.len());
    let across = Across::new(drawn, &scale);
    let heading = Heading::new(told, across.width);
    let web = Web::new(drawn, breach);
    let layout = Layout::new(drawn, &web, scale, &across, heading.bottom());
    let scene = Scene { drawn, breach, told: events, web: &web, across: &across, layout: &layout };
    let legend = Legend::new(&scene.signs(), &scene.words(), across.width);
    let (width, bottom) = (layout.width, layout.rows.bottom() + axis::HEIGHT);
    let mut svg = Svg::default();
    style::write(&mut svg, &scale);
    svg.rectangle("paper", at(0.0, 0.0), at(width, bottom + legend.height), 0.0);
    heading.draw(&mut svg);
    scene.draw(&mut svg);
    legend.draw(&mut svg, bottom);
    svg.finish(width, bottom + legend.height, heading.title())
}
