//! Numbers that people write.

use super::{Bad, Word};

impl Word<'_> {
    /// A whole number from 0 to the most, in decimal digits alone.
    pub fn number(&self, what: &str, most: u64) -> Result<u64, Bad> {
        self.at_most(most).ok_or_else(|| self.beyond(what, &format!("0 to {most}")))
    }

    /// The same, if it is one.
    pub fn at_most(&self, most: u64) -> Option<u64> {
        number(self.text).filter(|&number| number <= most)
    }

    /// It is none of the numbers that may stand there.
    pub fn beyond(&self, what: &str, may_be: &str) -> Bad {
        let whole = if is_digits(self.text) { "" } else { "a whole number from " };
        self.bad(format!("the {what} is {}, and may be {whole}{may_be}", self.found()))
    }
}

/// A whole number in decimal digits alone, without a sign.
pub fn number(text: &str) -> Option<u64> {
    is_digits(text).then(|| text.parse().ok()).flatten()
}

fn is_digits(text: &str) -> bool {
    text.bytes().all(|byte| byte.is_ascii_digit())
}

#[cfg(test)]
mod tests {
    use super::*;

    #[test]
    fn numbers_are_digits_within_a_range() {
        let number = |text| Word { line: 1, column: 5, text }.number("site", 255).map_err(|bad| bad.to_string());
        assert_eq!(number("255"), Ok(255));
        for (text, what) in [
            ("256", "256, and may be 0 to 255"),
            ("99999999999999999999999", "99999999999999999999999, and may be 0 to 255"),
            ("-1", "-1, and may be a whole number from 0 to 255"),
            ("+1", "+1, and may be a whole number from 0 to 255"),
            ("0x1", "0x1, and may be a whole number from 0 to 255"),
            ("1\u{7}", "1\u{fffd}, and may be a whole number from 0 to 255"),
            ("", "missing, and may be 0 to 255"),
        ] {
            assert_eq!(number(text), Err(format!("line 1, column 5: the site is {what}")));
        }
    }
}
