//! The second checker: a literal reading of document 01 and of the changes so far, generators of
//! records and scripts, comparers, and a baseline for speed.

pub mod baseline;
pub mod compare;
pub mod explain;
pub mod generate;
pub mod lattice;
pub mod limits;
pub mod lines;
pub mod models;
pub mod openings;
pub mod predicates;
pub mod questions;
pub mod reader;
pub mod record;
pub mod relations;
pub mod samples;
pub mod store;
