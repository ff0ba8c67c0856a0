//! The words of a table's cells.

use crate::text::{Bad, Word};
use gcr::Kind;

/// No value.
pub const NONE: &str = "none";
/// No return, or nothing seen.
pub const NOTHING: &str = "-";

const KINDS: [(&str, Kind); 2] = [("read", Kind::Read), ("write", Kind::Write)];
const STATES: [(&str, bool); 2] = [("returned", false), ("pending", true)];

/// In a cell for what may not be there, either word says that it is not, and so does an empty cell.
pub fn is_nothing(cell: &Word) -> bool {
    ["", NONE, NOTHING].iter().any(|name| cell.is(name))
}

pub fn kind_name(kind: Kind) -> &'static str {
    name(&KINDS, kind)
}

pub fn kind(cell: Word) -> Result<Kind, Bad> {
    named(&KINDS, "kind", cell)
}

pub fn state_name(is_pending: bool) -> &'static str {
    name(&STATES, is_pending)
}

/// Whether it is pending.
pub fn state(cell: Word) -> Result<bool, Bad> {
    named(&STATES, "state", cell)
}

fn name<T: PartialEq>(names: &[(&'static str, T)], of: T) -> &'static str {
    names.iter().find(|(_, each)| *each == of).map_or("", |(name, _)| name)
}

fn named<T: Copy>(names: &[(&str, T)], what: &str, cell: Word) -> Result<T, Bad> {
    let found = names.iter().find(|(name, _)| cell.is(name));
    found.map(|&(_, each)| each).ok_or_else(|| cell.unknown(&[(what, names.iter().map(|(name, _)| *name).collect())]))
}
