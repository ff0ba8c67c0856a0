//! Text in lines that are not too long.

/// Breaks between words, and inside a word only where it is too long for any line. A number stays with the word before it,
/// which says what it counts, and with its unit. Nothing is left out.
pub fn wrapped(text: &str, most: f64, width: impl Fn(&str) -> f64) -> Vec<String> {
    let mut lines = vec![String::new()];
    for word in &units(text, most, &width) {
        let last = lines.last_mut().expect("there is a line from the start");
        let joined = if last.is_empty() { word.to_string() } else { format!("{last} {word}") };
        if width(&joined) <= most {
            *last = joined;
        } else {
            lines.extend(pieces(word, most, &width));
        }
    }
    lines.retain(|line| !line.is_empty());
    lines
}

/// The words, each with a number after it, and that with its unit, where they have room in a line.
fn units(text: &str, most: f64, width: &impl Fn(&str) -> f64) -> Vec<String> {
    let words: Vec<&str> = text.split(' ').collect();
    let unit = |words: &[&str]| match words.join(" ") {
        whole if width(&whole) <= most => vec![whole],
        _ => words.iter().map(|word| word.to_string()).collect(),
    };
    let stay = |word: &&str, next: &&str| if is_number(word) { is_unit(next) } else { is_number(next) };
    words.chunk_by(stay).flat_map(unit).collect()
}

fn is_number(word: &str) -> bool {
    word.starts_with(|letter: char| letter.is_ascii_digit())
}

/// The only one there is.
fn is_unit(word: &str) -> bool {
    word.trim_end_matches([',', ';', '.']) == "ms"
}

/// A word in pieces that are not too long; a letter that alone is, is a piece.
fn pieces(word: &str, most: f64, width: &impl Fn(&str) -> f64) -> Vec<String> {
    let mut pieces = vec![String::new()];
    for letter in word.chars() {
        let last = pieces.last_mut().expect("there is a piece from the start");
        if last.is_empty() || width(&format!("{last}{letter}")) <= most {
            last.push(letter);
        } else {
            pieces.push(letter.to_string());
        }
    }
    pieces
}

#[cfg(test)]
mod tests {
    use super::*;

    fn wrapped_at(text: &str, most: usize) -> Vec<String> {
        wrapped(text, most as f64, |line| line.chars().count() as f64)
    }

    #[test]
    fn lines_break_between_words() {
        assert_eq!(wrapped_at("event 2 does not see event 0", 12), ["event 2 does", "not see", "event 0"]);
        assert_eq!(wrapped_at("event 2", 12), ["event 2"]);
    }

    #[test]
    fn a_number_stays_with_the_word_before_it() {
        assert_eq!(wrapped_at("but it did not see event 0", 24), ["but it did not see", "event 0"]);
        assert_eq!(wrapped_at("through events 2, 3, 4 and 5", 14), ["through", "events 2, 3, 4", "and 5"]);
    }

    #[test]
    fn a_unit_stays_with_its_number() {
        assert_eq!(wrapped_at("from 110 ms, then on", 14), ["from 110 ms,", "then on"]);
        assert_eq!(wrapped_at("it went on from 110 ms", 19), ["it went on", "from 110 ms"]);
        assert_eq!(wrapped_at("more than 39 msec", 12), ["more than 39", "msec"]);
    }

    #[test]
    fn a_long_word_breaks_too_and_nothing_is_lost() {
        assert_eq!(wrapped_at("in abcdefghij.gcr now", 6), ["in", "abcdef", "ghij.g", "cr now"]);
        assert_eq!(wrapped_at("abcdefgh: 2 now", 6), ["abcdef", "gh: 2", "now"]);
    }
}
