//! JSON read strictly, so that what the command writes is held to the format and not to itself.

use std::collections::BTreeMap;

#[derive(Clone, Debug, PartialEq)]
pub enum Json {
    Null,
    Number(u64),
    Text(String),
    List(Vec<Json>),
    Object(BTreeMap<String, Json>),
}

impl Json {
    pub fn read(text: &str) -> Json {
        let mut rest = text.chars().collect::<Vec<_>>();
        rest.reverse();
        let read = value(&mut rest);
        assert!(rest.is_empty(), "more after {text}");
        read
    }

    pub fn at(&self, key: &str) -> &Json {
        let Json::Object(object) = self else { panic!("{self:?} is no object") };
        object.get(key).unwrap_or_else(|| panic!("no {key} in {object:?}"))
    }

    pub fn keys(&self) -> Vec<&str> {
        let Json::Object(object) = self else { panic!("{self:?} is no object") };
        object.keys().map(String::as_str).collect()
    }

    pub fn text(&self) -> &str {
        let Json::Text(text) = self else { panic!("{self:?} is no text") };
        text
    }

    pub fn number(&self) -> u64 {
        let &Json::Number(number) = self else { panic!("{self:?} is no number") };
        number
    }

    pub fn list(&self) -> &[Json] {
        let Json::List(list) = self else { panic!("{self:?} is no list") };
        list
    }
}

/// What is to be read stands in `rest` from its end.
fn value(rest: &mut Vec<char>) -> Json {
    match *rest.last().expect("a value") {
        'n' => {
            "null".chars().for_each(|letter| expect(rest, letter));
            Json::Null
        }
        '"' => Json::Text(text(rest)),
        '[' => Json::List(between(rest, '[', ']', value)),
        '{' => {
            let pair = |rest: &mut Vec<char>| {
                let key = text(rest);
                expect(rest, ':');
                (key, value(rest))
            };
            Json::Object(between(rest, '{', '}', pair).into_iter().collect())
        }
        _ => number(rest),
    }
}

fn expect(rest: &mut Vec<char>, letter: char) {
    assert_eq!(rest.pop(), Some(letter));
}

fn between<T>(rest: &mut Vec<char>, open: char, close: char, one: impl Fn(&mut Vec<char>) -> T) -> Vec<T> {
    expect(rest, open);
    let mut all = Vec::new();
    while *rest.last().expect("an end") != close {
        if !all.is_empty() {
            expect(rest, ',');
        }
        all.push(one(rest));
    }
    expect(rest, close);
    all
}

fn number(rest: &mut Vec<char>) -> Json {
    let mut digits = String::new();
    while let Some(digit) = rest.pop_if(|letter| letter.is_ascii_digit()) {
        digits.push(digit);
    }
    Json::Number(digits.parse().expect("a number"))
}

fn text(rest: &mut Vec<char>) -> String {
    expect(rest, '"');
    let mut text = String::new();
    loop {
        match rest.pop().expect("an end of the text") {
            '"' => return text,
            '\\' => match rest.pop().expect("a letter") {
                'u' => {
                    let digits: String = (0..4).map(|_| rest.pop().expect("a digit")).collect();
                    text.push(char::from_u32(u32::from_str_radix(&digits, 16).unwrap()).unwrap());
                }
                letter @ ('"' | '\\') => text.push(letter),
                letter => panic!("no escape {letter}"),
            },
            letter => {
                assert!(letter >= ' ', "a control letter stands as it is");
                text.push(letter);
            }
        }
    }
}
