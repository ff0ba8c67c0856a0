//! Draws records and tells of their breaks: [`draw`] makes a picture in SVG, [`explain`] lines of text. What is broken,
//! and by which events, is found by the proved library alone.

pub mod drawing;

// Without the library there is nothing to find of a record.
#[cfg(feature = "library")]
mod finding;
#[cfg(feature = "library")]
mod layout;
#[cfg(feature = "library")]
mod part;
#[cfg(feature = "library")]
mod picture;
#[cfg(feature = "library")]
mod record;
#[cfg(feature = "library")]
mod sight;
#[cfg(feature = "library")]
mod telling;
#[cfg(feature = "library")]
mod ways;

#[cfg(feature = "library")]
pub use finding::{events, Asked, Break, Breaks, Broken, Verdicts};
#[cfg(feature = "library")]
pub use part::{Part, Undrawn};
#[cfg(feature = "library")]
pub use picture::{draw, Picture};
#[cfg(feature = "library")]
pub use telling::{explain, Explanation};
