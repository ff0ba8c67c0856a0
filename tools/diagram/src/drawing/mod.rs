//! What any picture is drawn with; nothing here knows of events.

pub mod badge;
pub mod frame;
pub mod letters;
pub mod page;
pub mod strokes;
pub mod svg;
pub mod wrap;
