//! `gcr show` and `gcr make` as people run them.

mod bad_text;
mod by_hand;
mod cut;
mod other_columns;
mod outputs;
mod page;
mod refused;
mod round_trips;
#[path = "../support/mod.rs"]
mod support;
