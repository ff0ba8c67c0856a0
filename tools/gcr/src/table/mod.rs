//! A record as a table: header rows, the row of columns, then a row for each event. `show` writes it, `make` reads it.

mod brackets;
mod column;
mod columns;
mod entries;
mod events;
mod form;
mod header;
mod names;
mod others;
mod ranges;
mod reading;
mod refused;
mod rows;
mod whole;
mod writing;

#[cfg(test)]
mod cuts;
#[cfg(test)]
mod damaged;
#[cfg(test)]
mod round_trips;
#[cfg(test)]
mod samples;

pub use form::Form;
pub use others::Others;
pub use reading::Table;
pub use writing::written;
