//! How wide pictures are, and the look of words and grounds.

/// Beside all that is drawn.
pub const MARGIN: f64 = 24.0;
/// Words above and below what is drawn have room in this.
pub const LEAST_WIDTH: f64 = 880.0;

/// Of every picture: words, and what is behind all.
pub const STYLE: &str = "\
text { font-family: Inter, 'Helvetica Neue', Arial, 'Liberation Sans', 'DejaVu Sans', sans-serif; fill: #1b2733; }
.title { font-weight: 600; }
.met { font-weight: 600; fill: #00578a; }
.broken { font-weight: 600; fill: #b04a00; }
.reason { fill: #b04a00; }
.sentence, .note { fill: #4c5b69; }
.site { font-weight: 600; fill: #33424f; }
.tick { fill: #5c6975; }
.paper { fill: #ffffff; }
.band { fill: #f3f6f9; }
";
