//! The ways of arrows between marks.

pub mod combs;
pub mod gaps;
pub mod ports;
pub mod routes;
pub mod tracks;
mod uprights;
