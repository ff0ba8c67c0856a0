//! The same work in plain safe Rust written to be fast, to compare speed with.
//! It shares only the table of models with the literal reading, so that
//! agreement means something.

pub mod columns;
pub mod explaining;
pub mod judging;
pub mod openings;
pub mod reading;
pub mod rehearsal;
pub mod rows;

pub(crate) fn refused(number: u32, place: usize) -> u64 {
    (1 << 21) + ((number as u64) << 10) + place as u64
}
