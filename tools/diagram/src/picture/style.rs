//! Colours and type. Blue and orange stay apart for colour-blind readers; writes are filled and have corners, reads are
//! hollow and round, so that the picture also holds in print without colour.

use crate::drawing::page::STYLE;
use crate::drawing::svg::{short, Svg};
use crate::layout::scale::Scale;

/// Of events.
const RULES: &str = "\
.time { stroke: #cdd6de; stroke-width: 1.5; }
.grid { stroke: #c9d2da; stroke-width: 1; }
.write .body { fill: #0072b2; stroke: #0072b2; stroke-width: 1.5; }
.write .badge { fill: #00456c; }
.write .number, .write .label, .write .place { fill: #ffffff; }
.read .body { fill: #ffffff; stroke: #0072b2; stroke-width: 1.5; }
.read .badge { fill: #d6e7f2; }
.read .place { fill: #5c6975; }
.until, .return { stroke: #0072b2; stroke-width: 2; }
.pending .body { stroke-dasharray: 6 4; }
.pending .until { stroke-dasharray: 6 4; }
.write.pending .body { fill: #4d9cc9; }
.ring { fill: #fbe3d0; stroke: #d55e00; }
.ring.pair { stroke-width: 3; }
.ring.named { stroke-width: 1.5; stroke-dasharray: 3 2; fill: none; }
.step { fill: none; stroke: #ffd24d; }
.seen { fill: none; stroke: #566573; }
.seen.all { marker-end: url(#all); }
.seen.alone { marker-end: url(#alone); }
.seen:hover { stroke-width: 3; }
.gap { fill: none; stroke: #a9b4be; stroke-width: 1.5; }
.strokes { fill: none; stroke: #3d4a56; stroke-width: 1.5; }
.break { fill: none; stroke: #d55e00; stroke-width: 3; marker-end: url(#break); }
.break.unseen, .break.unplaced { stroke-dasharray: 9 5; }
.break.placed { stroke-dasharray: 0.1 6; stroke-linecap: round; }
.ground { fill: #ffd24d; stroke: #ffffff; stroke-width: 1.5; }
.edge { fill: none; stroke: #ffffff; stroke-width: 7; stroke-linecap: round; }
.cross { fill: none; stroke: #d55e00; stroke-width: 3; }
.said { font-weight: 600; fill: #b04a00; paint-order: stroke; stroke: #ffffff; stroke-width: 4px; stroke-linejoin: round; }
";

const FILLED: &str = "M0,0.6 L10,5 L0,9.4 L2.4,5 Z";
const OPEN: &str = "M0.8,1 L9,5 L0.8,9 Z";

pub fn write(svg: &mut Svg, scale: &Scale) {
    let widths = [(".seen", scale.head / 7.0), (".step", scale.band()), (".step.later", 2.0 * scale.band())];
    let widths = widths.map(|(of, width)| format!("{of} {{ stroke-width: {}; }}\n", short(width))).concat();
    svg.raw(&format!("<style>\n{widths}{STYLE}{RULES}</style>"));
    svg.raw("<defs>");
    head(svg, "all", scale.head, &format!("fill=\"#566573\" d=\"{FILLED}\""));
    let open = "fill=\"#ffffff\" stroke=\"#566573\" stroke-width=\"1.3\"";
    head(svg, "alone", scale.head, &format!("{open} d=\"{OPEN}\""));
    head(svg, "break", 15.0, &format!("fill=\"#d55e00\" d=\"{FILLED}\""));
    svg.raw("</defs>");
}

fn head(svg: &mut Svg, name: &str, size: f64, path: &str) {
    let size = short(size);
    let frame = "viewBox=\"0 0 10 10\" refX=\"9.5\" refY=\"5\" orient=\"auto\" markerUnits=\"userSpaceOnUse\"";
    svg.raw(&format!("<marker id=\"{name}\" {frame} markerWidth=\"{size}\" markerHeight=\"{size}\">"));
    svg.raw(&format!("<path {path}/></marker>"));
}
