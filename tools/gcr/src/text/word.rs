//! Words of a line, and what is wrong with one.

use std::fmt;

/// A word and where it stands. Lines and columns are counted from 1, columns by letters.
#[derive(Clone, Copy, Debug, PartialEq, Eq)]
pub struct Word<'a> {
    pub line: usize,
    pub column: usize,
    pub text: &'a str,
}

/// Why text is not taken, and where that stands.
#[derive(Clone, Debug, PartialEq, Eq)]
pub struct Bad {
    pub line: usize,
    pub column: usize,
    pub what: String,
}

impl fmt::Display for Bad {
    fn fmt(&self, f: &mut fmt::Formatter<'_>) -> fmt::Result {
        write!(f, "line {}, column {}: {}", self.line, self.column, self.what)
    }
}

impl Word<'_> {
    pub fn bad(&self, what: impl Into<String>) -> Bad {
        Bad { line: self.line, column: self.column, what: what.into() }
    }
}

/// The words of a line, up to a `#`, which begins a remark.
pub fn words(line: usize, text: &str) -> Vec<Word<'_>> {
    parted(line, before_remark(text))
}

/// What stands between white space, in a line that has no remark.
pub fn parted(line: usize, text: &str) -> Vec<Word<'_>> {
    let mut words = Vec::new();
    let mut begun = None;
    let letters = text.char_indices().chain([(text.len(), ' ')]);
    for (column, (at, letter)) in (1..).zip(letters) {
        match begun {
            None if !letter.is_whitespace() => begun = Some((column, at)),
            Some((column, from)) if letter.is_whitespace() => {
                words.push(Word { line, column, text: &text[from..at] });
                begun = None;
            }
            _ => {}
        }
    }
    words
}

pub fn before_remark(text: &str) -> &str {
    text.split('#').next().unwrap_or("")
}

#[cfg(test)]
mod tests {
    use super::*;

    #[test]
    fn words_stand_at_columns_of_letters() {
        let read: Vec<_> = words(3, "  put\t0 ä5 7 # remark").iter().map(|word| (word.column, word.text)).collect();
        assert_eq!(read, [(3, "put"), (7, "0"), (9, "ä5"), (12, "7")]);
        assert!(words(1, " # put").is_empty());
    }
}
