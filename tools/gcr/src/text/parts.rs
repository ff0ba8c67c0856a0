//! Parts of a word or of a cell, each with its own place.

use super::word::parted;
use super::Word;

impl<'a> Word<'a> {
    /// What stands in it between white space. A remark was cut off before, or has no place here: a spreadsheet writes
    /// `#REF!` where it has no value.
    pub fn words(&self) -> Vec<Word<'a>> {
        let placed = |word: Word<'a>| Word { column: self.column + word.column - 1, ..word };
        parted(self.line, self.text).into_iter().map(placed).collect()
    }

    /// What stands before and after the first of these separators.
    pub fn split(&self, separator: &str) -> Option<(Word<'a>, Word<'a>)> {
        let at = self.text.find(separator)?;
        Some((self.first(at), self.rest(at + separator.len())))
    }

    /// So many of its bytes.
    pub fn first(&self, bytes: usize) -> Word<'a> {
        Word { text: &self.text[..bytes], ..*self }
    }

    /// What comes after so many of its bytes.
    pub fn rest(&self, bytes: usize) -> Word<'a> {
        let column = self.column + self.text[..bytes].chars().count();
        Word { line: self.line, column, text: &self.text[bytes..] }
    }

    /// Without white space before it.
    pub fn begun(&self) -> Word<'a> {
        self.rest(self.text.len() - self.text.trim_start().len())
    }

    /// Without white space around it.
    pub fn trimmed(&self) -> Word<'a> {
        let begun = self.begun();
        Word { text: begun.text.trim_end(), ..begun }
    }
}

#[cfg(test)]
mod tests {
    use super::*;

    const CELL: Word = Word { line: 2, column: 10, text: " ä..5  7 " };

    fn places(words: &[Word<'static>]) -> Vec<(usize, &'static str)> {
        words.iter().map(|word| (word.column, word.text)).collect()
    }

    #[test]
    fn parts_stand_where_they_stand_in_the_line() {
        assert_eq!(places(&CELL.words()), [(11, "ä..5"), (17, "7")]);
        assert_eq!(places(&[CELL.trimmed()]), [(11, "ä..5  7")]);
        let (first, last) = CELL.words()[0].split("..").unwrap();
        assert_eq!(places(&[first, last]), [(11, "ä"), (14, "5")]);
        assert_eq!(CELL.split("-"), None);
    }
}
