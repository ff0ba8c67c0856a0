//! What several tests use; none uses all of it.
#![allow(dead_code)]

pub mod asking;
pub mod drawing;
pub mod frame;
pub mod letters;
pub mod lines;
pub mod parts;
pub mod program;
pub mod records;
pub mod seen;
pub mod truth;
