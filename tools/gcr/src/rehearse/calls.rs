//! Calls as words, and words as calls. A kind of call is one row of a table, for both ways.

use super::script::CALL;
use crate::text::{Bad, Word};
use std::ops::Range;

/// A kind of call that has a word.
pub struct Form {
    pub word: &'static str,
    /// Byte 0 of the call.
    kind: u8,
    /// What comes after the word, in this order.
    fields: &'static [Field],
}

/// A number of a call, and the bytes that have it, the lowest first.
struct Field {
    name: &'static str,
    what: &'static str,
    at: Range<usize>,
}

const SITE: Field = Field { name: "SITE", what: "site", at: 1..2 };
const OBJECT: Field = Field { name: "OBJECT", what: "object", at: 2..3 };
const VALUE: Field = Field { name: "VALUE", what: "value", at: 4..8 };
const EVENT: Field = Field { name: "EVENT", what: "event", at: 4..6 };

pub const FORMS: &[Form] = &[
    Form { word: "put", kind: 1, fields: &[SITE, OBJECT, VALUE] },
    Form { word: "get", kind: 2, fields: &[SITE, OBJECT] },
    Form { word: "deliver", kind: 3, fields: &[EVENT, SITE] },
    Form { word: "close", kind: 4, fields: &[] },
];

impl Form {
    pub fn named(word: &str) -> Option<&'static Form> {
        FORMS.iter().find(|form| form.word == word)
    }

    /// That says all of a call, so that the call can be made of its words again.
    fn of(call: &[u8]) -> Option<&'static Form> {
        FORMS.iter().find(|form| form.kind == call[0] && form.says_all_of(call))
    }

    fn says_all_of(&self, call: &[u8]) -> bool {
        let is_said = |at: usize| self.fields.iter().any(|field| field.at.contains(&at));
        (1..CALL).all(|at| call[at] == 0 || is_said(at))
    }

    /// What comes after its word.
    pub fn names(&self) -> Vec<&'static str> {
        self.fields.iter().map(|field| field.name).collect()
    }

    /// The call that these words after its own say: one for each name.
    pub fn read(&self, words: &[Word]) -> Result<[u8; CALL], Bad> {
        let mut call = [0; CALL];
        call[0] = self.kind;
        for (field, word) in self.fields.iter().zip(words) {
            let number = word.number(field.what, field.most())?;
            call[field.at.clone()].copy_from_slice(&number.to_le_bytes()[..field.at.len()]);
        }
        Ok(call)
    }

    fn written(&self, call: &[u8]) -> String {
        let numbers = self.fields.iter().map(|field| format!(" {}", field.number(call)));
        [self.word.to_string()].into_iter().chain(numbers).collect()
    }
}

impl Field {
    /// That its bytes can have.
    fn most(&self) -> u64 {
        (1 << (8 * self.at.len())) - 1
    }

    fn number(&self, call: &[u8]) -> u64 {
        call[self.at.clone()].iter().rev().fold(0, |sum, &byte| sum << 8 | u64::from(byte))
    }
}

/// The word before the bytes of a call that has no word of its own.
pub const RAW: &str = "call";

pub const RAW_NAMES: [&str; CALL] = ["B0", "B1", "B2", "B3", "B4", "B5", "B6", "B7"];

/// A byte for each name.
pub fn read_raw(words: &[Word]) -> Result<[u8; CALL], Bad> {
    let mut call = [0; CALL];
    for (byte, word) in call.iter_mut().zip(words) {
        *byte = hexadecimal(word.text).ok_or_else(|| word.bad("a byte is two hexadecimal digits, 00 to ff"))?;
    }
    Ok(call)
}

fn hexadecimal(text: &str) -> Option<u8> {
    let is_digits = text.len() == 2 && text.bytes().all(|byte| byte.is_ascii_hexdigit());
    is_digits.then(|| u8::from_str_radix(text, 16).ok()).flatten()
}

/// A call's eight bytes as words: by its own word where that says all of it.
pub fn written(call: &[u8]) -> String {
    let raw = || call.iter().fold(RAW.to_string(), |line, byte| format!("{line} {byte:02x}"));
    Form::of(call).map_or_else(raw, |form| form.written(call))
}

#[cfg(test)]
mod tests {
    use super::*;
    use crate::text::words;
    use gcr::Call;

    fn read(line: &str) -> [u8; CALL] {
        let words = words(1, line);
        match Form::named(words[0].text) {
            Some(form) => form.read(&words[1..]).unwrap(),
            None => read_raw(&words[1..]).unwrap(),
        }
    }

    #[test]
    fn words_say_the_calls_of_the_library_both_ways() {
        let calls = [
            ("put 1 5 200", Call::Put { site: 1, object: 5, value: 200 }),
            ("put 255 254 4294967294", Call::Put { site: 255, object: 254, value: u32::MAX - 1 }),
            ("get 7 31", Call::Get { site: 7, object: 31 }),
            ("deliver 258 3", Call::Deliver { site: 3, event: 258 }),
            ("deliver 65535 255", Call::Deliver { site: 255, event: u16::MAX }),
            ("close", Call::Close),
        ];
        for (line, call) in calls {
            assert_eq!(read(line), call.bytes(), "{line}");
            assert_eq!(written(&call.bytes()), line);
        }
    }

    #[test]
    fn calls_that_no_word_says_are_their_bytes() {
        for line in ["call 00 00 00 00 00 00 00 00", "call 09 0a ff 00 00 00 00 01", "call 05 00 00 00 00 00 00 00"] {
            assert_eq!(written(&read(line)), line);
        }
        assert_eq!(read("call 0A Ff 00 00 00 00 00 00"), [10, 255, 0, 0, 0, 0, 0, 0]);
    }

    /// Where a byte that is not zero leaves a call its word.
    #[test]
    fn a_word_says_all_or_is_not_used() {
        let said: [&[usize]; 4] = [&[1, 2, 4, 5, 6, 7], &[1, 2], &[1, 4, 5], &[]];
        for (kind, said) in (1..).zip(said) {
            for at in 1..CALL {
                let mut call = [kind, 0, 0, 0, 0, 0, 0, 0];
                call[at] = 1;
                assert_eq!(!written(&call).starts_with("call "), said.contains(&at), "kind {kind}, byte {at}");
                assert_eq!(read(&written(&call)), call);
            }
        }
    }
}
