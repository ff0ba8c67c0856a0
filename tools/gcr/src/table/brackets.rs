//! Brackets around what an event sees. A cell of ranges that was cut says other ranges, so the end of a whole one is
//! seen.

use crate::text::{Bad, Word};

/// What stands around a cell.
const OPEN: char = '[';
const CLOSE: char = ']';

/// Nothing in them.
pub const NOTHING: &str = "[]";

pub fn around(inside: &str) -> String {
    format!("{OPEN}{inside}{CLOSE}")
}

/// What stands in them, where both are there.
pub fn within(word: Word) -> Option<Word> {
    let inside = word.text.strip_prefix(OPEN)?.strip_suffix(CLOSE)?;
    Some(word.rest(OPEN.len_utf8()).first(inside.len()).trimmed())
}

/// One of them is not there, or both, under a column of this name.
pub fn missing(column: Word, cell: Word) -> Bad {
    let (column, found) = (column.shown(), cell.found());
    let may_be = format!("a whole one is in brackets, as [0..5 7], and {NOTHING} where nothing is seen");
    cell.bad(format!("the cell of {column} is {found}, and may be cut: {may_be}"))
}

#[cfg(test)]
mod tests {
    use super::*;

    #[test]
    fn what_stands_within_keeps_its_place() {
        let inside = |text| within(Word { line: 1, column: 5, text }).map(|inside| (inside.column, inside.text));
        assert_eq!(inside("[0..1 3]"), Some((6, "0..1 3")));
        assert_eq!(inside("[ 0 ]"), Some((7, "0")));
        assert_eq!((inside("[]"), inside("[  ]")), (Some((6, "")), Some((8, ""))));
        for text in ["", "[", "]", "[0", "0]", "0..1", "[0] 1"] {
            assert_eq!(inside(text), None, "{text}");
        }
    }
}
