//! Columns that a record has not, as a site's log may have them.

use super::column::Column;
use crate::text::{Bad, Word};

/// What becomes of them.
#[derive(Clone, Copy, Debug, PartialEq, Eq)]
pub enum Others {
    Refused,
    PassedOver,
}

impl Others {
    /// By which they are passed over.
    pub const OPTION: &str = "--ignore-other-columns";
}

/// A column that is none of a record's, where others are refused.
pub fn unknown(name: Word) -> Bad {
    let bad = name.unknown(&[("column", Column::names())]);
    Bad { what: format!("{}; {} passes over others", bad.what, Others::OPTION), ..bad }
}

/// So many names are told.
const NAMES: usize = 9;

/// What is told of those that are passed over, if there are any.
pub fn passed_over(others: &[Word]) -> Option<String> {
    let names: Vec<String> = others.iter().take(NAMES).map(Word::shown).collect();
    let more = others.len() - names.len();
    let more = if more == 0 { String::new() } else { format!(" and {more} more") };
    let are = if others.len() == 1 { "column is" } else { "columns are" };
    let said = || format!("{} {are} passed over: {}{more}", others.len(), names.join(", "));
    (!others.is_empty()).then(said)
}
