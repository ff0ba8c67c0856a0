//! Where lines end, and whether the last one does.

use super::{Bad, Word};

/// With LF at the end of each line: other systems and older spreadsheets write CR and LF, or CR alone.
pub fn with_line_feeds(text: &str) -> String {
    text.replace("\r\n", "\n").replace('\r', "\n")
}

/// What is told of a text whose last line has no end, where that line says something: it may have been cut there.
pub fn unended<'a>(text: &'a str, says_something: impl Fn(Word<'a>) -> bool) -> Option<Bad> {
    let (before, last) = text.lines().enumerate().last().filter(|_| !text.ends_with('\n'))?;
    let line = Word { line: before + 1, column: 1, text: last };
    let what = "the last line has no newline at its end, and may be cut";
    says_something(line).then(|| line.rest(last.len()).bad(what))
}

#[cfg(test)]
mod tests {
    use super::*;

    #[test]
    fn lines_end_by_any_system() {
        assert_eq!(with_line_feeds("a\r\nb\rc\n\rd\r"), "a\nb\nc\n\nd\n");
    }

    #[test]
    fn only_a_last_line_without_an_end_may_be_cut() {
        let place = |text| unended(text, |line| !line.text.is_empty()).map(|bad| (bad.line, bad.column));
        assert_eq!((place("a\nä2"), place("a")), (Some((2, 3)), Some((1, 2))));
        assert_eq!((place(""), place("a\n"), place("a\n\n")), (None, None, None));
        assert_eq!(unended("a", |_| false), None);
    }
}
