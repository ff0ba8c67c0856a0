//! Openings as people write them: an object and its value.

use crate::text::{Bad, Word};
use gcr::Openings;

/// The objects that may have one.
const OBJECTS: &str = "0 to 31";

/// The same with one more.
pub fn opened(openings: Openings, object: Word, value: Word) -> Result<Openings, Bad> {
    let beyond = || object.beyond("object of an opening", OBJECTS);
    let number = object.at_most(u8::MAX.into()).ok_or_else(beyond)? as u8;
    if openings.get(number).is_some() {
        return Err(object.bad(format!("object {number} has an opening already")));
    }
    let opened = openings.with(number, value.number("opening", u32::MAX.into())? as u32);
    opened.ok_or_else(beyond)
}

/// The objects that have one, each with it.
pub fn all(openings: &Openings) -> impl Iterator<Item = (u8, u32)> + '_ {
    (0..=u8::MAX).filter_map(|object| openings.get(object).map(|value| (object, value)))
}
