//! Names that come from outside, as they can be shown.

/// Control characters would steer a terminal, XML has none, some letters end a line for some programs, and those that
/// turn the direction of text would let a name pass for another.
pub fn printable(name: &str) -> String {
    let turns = |letter| matches!(letter, '\u{61c}' | '\u{200e}' | '\u{200f}' | '\u{202a}'..='\u{202e}' | '\u{2066}'..='\u{2069}');
    let ends_line = |letter| matches!(letter, '\u{2028}' | '\u{2029}');
    let is_letter = |letter: char| !letter.is_control() && !matches!(letter, '\u{fffe}' | '\u{ffff}');
    let is_shown = |letter: char| is_letter(letter) && !turns(letter) && !ends_line(letter);
    name.chars().map(|letter| if is_shown(letter) { letter } else { '\u{fffd}' }).collect()
}

#[cfg(test)]
mod tests {
    use super::*;

    #[test]
    fn letters_that_cannot_be_shown_are_replaced() {
        assert_eq!(printable("a\u{1}b\nc\u{202e}d\u{2028}"), "a\u{fffd}b\u{fffd}c\u{fffd}d\u{fffd}");
    }
}
