//! A word that is none of the right ones.

use crate::nearest::hint;
use crate::printable::printable;

/// So many letters of a wrong word are shown, and longer ones have no nearest.
const SHOWN: usize = 32;

/// What is said of it, where one of these of its kind would be right.
pub fn unknown<'a>(kind: &str, word: &str, right: impl IntoIterator<Item = &'a str>) -> String {
    let hint = if is_long(word) { String::new() } else { hint(word, right) };
    format!("there is no {kind} {}{hint}", shown(word))
}

/// As a message can show it.
pub fn shown(word: &str) -> String {
    let start: String = word.chars().take(SHOWN).collect();
    format!("{}{}", printable(&start), if is_long(word) { "…" } else { "" })
}

fn is_long(word: &str) -> bool {
    word.chars().nth(SHOWN).is_some()
}

#[cfg(test)]
mod tests {
    use super::*;

    #[test]
    fn a_wrong_word_is_shown_with_the_nearest_right_one() {
        let unknown = |word: &str| unknown("kind", word, ["read", "write"]);
        assert_eq!(unknown("raed"), "there is no kind raed; the nearest is read");
        assert_eq!(unknown("zzzzzz\u{7}"), "there is no kind zzzzzz\u{fffd}");
        assert_eq!(unknown(&"ä".repeat(32)), format!("there is no kind {}", "ä".repeat(32)));
        assert_eq!(unknown(&"ä".repeat(1_000_000)), format!("there is no kind {}…", "ä".repeat(32)));
    }
}
