//! A model's box: its number in a part of its own, and its name beside that.

use diagram::drawing::badge::badge;
use diagram::drawing::frame::Frame;
use diagram::drawing::letters::text_width;
use diagram::drawing::svg::{at, Svg};
use diagram::drawing::wrap::wrapped;

pub const WIDTH: f64 = 142.0;
/// The part with the number.
const BADGE: f64 = 28.0;
/// Beside a name, and over and under it.
const BESIDE: f64 = 5.0;
const OVER: f64 = 7.0;
const FONT: f64 = 14.0;
/// From one line of a name to the next.
const LINE: f64 = 16.0;
const ROUND: f64 = 8.0;
/// Half of the edge.
const INSIDE: f64 = 0.75;

/// All boxes are as high as the longest name needs.
pub fn height(names: &[String]) -> f64 {
    let most = names.iter().map(|name| lines(name).len()).max().unwrap_or(0);
    most as f64 * LINE + 2.0 * OVER
}

pub fn draw(svg: &mut Svg, frame: &Frame, number: usize, name: &str, words: &str) {
    svg.open_model("model", number, words);
    svg.rectangle("body", frame.upper_left(), frame.lower_right(), ROUND);
    svg.path("badge", &badge(&frame.grown(-INSIDE), ROUND - INSIDE, BADGE - INSIDE));
    let base = frame.middle() + 0.36 * FONT;
    svg.centred("number", at(frame.left + BADGE / 2.0, base), FONT, &number.to_string());
    let lines = lines(name);
    let (centre, first) = ((frame.left + BADGE + frame.right) / 2.0, base - (lines.len() - 1) as f64 * LINE / 2.0);
    for (index, line) in lines.iter().enumerate() {
        svg.centred("label", at(centre, first + index as f64 * LINE), FONT, line);
    }
    svg.close();
}

fn lines(name: &str) -> Vec<String> {
    wrapped(name, WIDTH - BADGE - 2.0 * BESIDE, |line| text_width(line, FONT))
}

#[cfg(test)]
mod tests {
    use super::*;

    #[test]
    fn a_long_name_goes_on_in_the_next_line() {
        assert_eq!(lines("Pram"), ["Pram"]);
        assert_eq!(lines("per-object sequential"), ["per-object", "sequential"]);
        assert_eq!(height(&["Pram".to_string(), "per-object sequential".to_string()]), 2.0 * LINE + 2.0 * OVER);
    }
}
