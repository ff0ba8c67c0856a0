//! The times, below the sites.

use crate::drawing::letters::text_width;
use crate::drawing::page::MARGIN;
use crate::drawing::svg::{at, Svg};
use crate::layout::across::Across;

pub const HEIGHT: f64 = 34.0;
const FONT: f64 = 10.5;
/// Between one time's text and the next.
const APART: f64 = 6.0;
/// Times from here on would crowd the axis, and count from the first one instead.
const LONG: u64 = 100_000;

/// The time from which times count.
pub fn base(across: &Across) -> u64 {
    across.ticks.first().map_or(0, |&(first, _)| if first < LONG { 0 } else { first })
}

/// Ticks at every time, and the time itself where it does not run into the one before or out of the picture.
pub fn draw(svg: &mut Svg, across: &Across, bottom: f64) {
    svg.text("note", at(MARGIN, bottom + 23.0), FONT, "time");
    let mut free = MARGIN + text_width("time", FONT) + APART;
    for &(time, x) in &across.ticks {
        svg.line("grid", at(x, bottom + 4.0), at(x, bottom + 10.0));
        let text = (time - base(across)).to_string();
        let half = text_width(&text, FONT) / 2.0;
        if x - half >= free && x + half <= across.width {
            svg.centred("tick", at(x, bottom + 23.0), FONT, &text);
            free = x + half + APART;
        }
    }
}
