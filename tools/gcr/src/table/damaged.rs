//! Texts with something wrong in them: each is refused with its place, or says another record that passes.

use super::samples::random;
use super::{written, Form, Others};
use crate::make;
use crate::text::letters;
use gcr::Record;
use second::generate::random::Random;

const LETTERS: [&str; 26] = [
    "0",
    "1",
    "7",
    "9",
    "99999999999",
    " ",
    "\t",
    "\n",
    "\r\n",
    ",",
    ";",
    "\"",
    "#",
    "-",
    "..",
    ".",
    "none",
    "x",
    "ä",
    "\u{feff}",
    "\u{0}",
    "sites 2\n",
    "opening 3 1\n",
    "pending",
    "[",
    "]",
];

/// A line, a byte or a letter is changed.
fn damaged(random: &mut Random, text: &str) -> Vec<u8> {
    match random.below(8) {
        0..3 => in_lines(random, text),
        3 => in_bytes(random, text),
        _ => in_letters(random, text),
    }
}

/// Taken out, doubled or swapped.
fn in_lines(random: &mut Random, text: &str) -> Vec<u8> {
    let mut lines: Vec<&str> = text.lines().collect();
    let (one, other) = (random.index(lines.len()), random.index(lines.len()));
    match random.below(3) {
        0 => drop(lines.remove(one)),
        1 => lines.insert(one, lines[other]),
        _ => lines.swap(one, other),
    }
    (lines.join("\n") + "\n").into_bytes()
}

fn in_bytes(random: &mut Random, text: &str) -> Vec<u8> {
    let mut bytes = text.as_bytes().to_vec();
    bytes[random.index(text.len())] = random.byte();
    bytes
}

/// Taken out, put in or replaced.
fn in_letters(random: &mut Random, text: &str) -> Vec<u8> {
    let mut letters: Vec<String> = text.chars().map(String::from).collect();
    let at = random.index(letters.len());
    let letter = random.pick(&LETTERS).to_string();
    match random.below(3) {
        0 => drop(letters.remove(at)),
        1 => letters.insert(at, letter),
        _ => letters[at] = letter,
    }
    letters.concat().into_bytes()
}

/// Line and column of a message that has them.
fn place(what: &str) -> Option<(usize, usize)> {
    let (line, rest) = what.strip_prefix("line ")?.split_once(", column ")?;
    let (column, _) = rest.split_once(": ")?;
    Some((line.parse().ok()?, column.parse().ok()?))
}

/// A place is in the text, or right after a line or after the last.
fn is_in(text: &[u8], (line, column): (usize, usize)) -> bool {
    let text = String::from_utf8_lossy(text);
    let lines: Vec<&str> = text.lines().collect();
    let letters = lines.get(line - 1).map_or(0, |line| line.chars().count());
    (1..=lines.len() + 1).contains(&line) && (1..=letters + 1).contains(&column)
}

fn is_refused_with_a_place(text: &[u8], what: &str) -> bool {
    place(what).is_some_and(|place| is_in(text, place))
}

fn encoded(form: Form, text: &str) -> Result<Vec<u8>, String> {
    make::encoded(form, Others::Refused, text).map(|made| made.record)
}

fn made(form: Form, bytes: &[u8]) -> Result<Vec<u8>, String> {
    encoded(form, letters(bytes).map_err(|bad| bad.to_string())?)
}

fn says_a_record(form: Form, bytes: &[u8]) {
    let text = written(form, &Record::read(bytes).expect("what is made passes"));
    assert_eq!(encoded(form, &text).as_deref(), Ok(bytes), "{text}");
}

#[test]
fn damaged_texts_are_refused_with_a_place_or_say_a_record() {
    let mut random_damage = Random::new(11);
    let (mut refused, mut passed) = (0, 0);
    for (name, bytes) in random(900).filter(|(_, bytes)| bytes.len() <= 512 * 5) {
        for form in [Form::Text, Form::Csv].repeat(8) {
            let text = written(form, &Record::read(&bytes).expect("a sample passes"));
            let text = damaged(&mut random_damage, &text);
            match made(form, &text) {
                Ok(bytes) => {
                    says_a_record(form, &bytes);
                    passed += 1;
                }
                Err(what) => {
                    assert!(
                        is_refused_with_a_place(&text, &what),
                        "{name}: {what}\n{}",
                        String::from_utf8_lossy(&text)
                    );
                    refused += 1;
                }
            }
        }
    }
    assert!(refused >= 2_000 && passed >= 1_000, "{refused} refused, {passed} passed");
}

#[test]
fn long_lines_words_and_columns_of_text_end_soon() {
    for form in [Form::Text, Form::Csv] {
        for part in ["a", "0 ", "0,", "\"", "\n", "sites ", "event,", "#", "ä", ";,"] {
            let text = part.repeat(2_000_000 / part.len()) + &" ".repeat(1_000_000);
            assert!(encoded(form, &text).is_err_and(|what| what.len() < 400), "{part:?}");
        }
    }
}
