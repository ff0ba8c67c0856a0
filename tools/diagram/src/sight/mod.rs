//! Which arrows and lines tell exactly what events see.

mod arrow;
mod arrows;
mod lanes;
mod web;

pub use arrow::{Arrow, Says};
pub use lanes::Lanes;
pub use web::{Line, Web};
