//! How wide text is.

/// No less than what the usual sans-serif fonts need.
pub fn text_width(text: &str, font: f64) -> f64 {
    font * text.chars().map(advance).sum::<f64>()
}

/// The same in bold.
pub fn bold_width(text: &str, font: f64) -> f64 {
    1.12 * text_width(text, font)
}

fn advance(letter: char) -> f64 {
    match letter {
        ' ' | '\'' | ',' | '.' | 'i' | 'j' | 'l' | 'I' => 0.34,
        '(' | ')' | '-' | '/' | ':' | ';' | 'f' | 'r' | 't' => 0.44,
        'm' | 'w' | 'M' | 'W' | '%' | '@' => 1.0,
        'A'..='Z' | '+' | '=' | '<' | '>' | '#' | '&' | '~' | '^' | '→' => 0.84,
        _ if letter.is_ascii() => 0.64,
        _ => 1.0,
    }
}
