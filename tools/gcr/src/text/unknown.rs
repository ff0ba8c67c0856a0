//! A word that is none of those that may stand there.

use super::{Bad, Word};
use crate::unknown::{shown, unknown};

impl Word<'_> {
    /// Large and small letters are the same.
    pub fn is(&self, name: &str) -> bool {
        self.text.eq_ignore_ascii_case(name)
    }

    /// It is none of the right words: of each kind that may stand there, all that there are.
    pub fn unknown(&self, right: &[(&str, Vec<&str>)]) -> Bad {
        let what = right.iter().map(|(what, _)| *what).collect::<Vec<_>>().join(" or ");
        let words = right.iter().flat_map(|(_, words)| words.iter().copied());
        let found = match self.text {
            "" => format!("the {what} is missing"),
            text => unknown(&what, text, words),
        };
        let all = right.iter().map(|(what, words)| format!("; the {what}s are {}", words.join(", ")));
        self.bad([found].into_iter().chain(all).collect::<String>())
    }

    /// As a message can show it.
    pub fn shown(&self) -> String {
        shown(self.text)
    }

    /// The same, or that there is none.
    pub fn found(&self) -> String {
        match self.text {
            "" => "missing".to_string(),
            _ => self.shown(),
        }
    }
}

#[cfg(test)]
mod tests {
    use super::*;

    #[test]
    fn a_wrong_word_or_none_is_told() {
        let kinds = ("kind", vec!["read", "write"]);
        let unknown = |text, right: &[_]| Word { line: 1, column: 2, text }.unknown(right).what;
        let one = std::slice::from_ref(&kinds);
        assert_eq!(unknown("raed", one), "there is no kind raed; the nearest is read; the kinds are read, write");
        assert_eq!(unknown("zzzz", one), "there is no kind zzzz; the kinds are read, write");
        assert_eq!(unknown("", one), "the kind is missing; the kinds are read, write");
        let two = [kinds, ("state", vec!["pending"])];
        let what =
            "there is no kind or state pend; the nearest is read; the kinds are read, write; the states are pending";
        assert_eq!(unknown("pend", &two), what);
    }
}
