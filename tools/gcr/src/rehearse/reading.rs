//! A script from text.

use super::calls::{read_raw, Form, FORMS, RAW, RAW_NAMES};
use super::script::{Script, CALL};
use crate::openings;
use crate::text::{after, unended, words, Bad, Word};
use gcr::Openings;

/// The words that a line begins with beside those of calls.
const SITES: &str = "sites";
const OPEN: &str = "open";

pub fn read(text: &str) -> Result<Script, Bad> {
    let mut reader = Reader { sites: None, openings: Openings::none(), calls: Vec::new() };
    for (number, line) in (1..).zip(text.lines()) {
        reader.line(&words(number, line))?;
    }
    let sites = reader.sites.ok_or_else(|| after(text, "sites N is missing"))?;
    Ok(Script { sites, openings: *reader.openings.as_bytes(), calls: reader.calls })
}

/// What is told of a text that may be cut in its last line: of `put 0 5 350` it may have kept `put 0 5 3`.
pub fn doubt(text: &str) -> Option<Bad> {
    unended(text, |line| !words(line.line, line.text).is_empty())
}

/// What the lines so far have said.
struct Reader {
    sites: Option<u8>,
    openings: Openings,
    calls: Vec<u8>,
}

impl Reader {
    fn line(&mut self, line: &[Word]) -> Result<(), Bad> {
        let [first, rest @ ..] = line else { return Ok(()) };
        match first.text {
            SITES => self.sites(first, taken(first, rest, &["N"])?),
            OPEN => self.opening(first, taken(first, rest, &["OBJECT", "VALUE"])?),
            RAW => self.call(first, read_raw(taken(first, rest, &RAW_NAMES)?)?),
            word => {
                let form = Form::named(word).ok_or_else(|| first.unknown(&[("word", right())]))?;
                self.call(first, form.read(taken(first, rest, &form.names())?)?)
            }
        }
    }

    fn sites(&mut self, first: &Word, words: &[Word]) -> Result<(), Bad> {
        if self.sites.is_some() {
            return Err(first.bad("sites N comes once"));
        }
        self.sites = Some(words[0].number("number of sites", u8::MAX.into())? as u8);
        Ok(())
    }

    fn opening(&mut self, first: &Word, words: &[Word]) -> Result<(), Bad> {
        if !self.calls.is_empty() {
            return Err(first.bad("openings come before the first call"));
        }
        self.openings = openings::opened(self.openings, words[0], words[1])?;
        Ok(())
    }

    fn call(&mut self, first: &Word, call: [u8; CALL]) -> Result<(), Bad> {
        if self.sites.is_none() {
            return Err(first.bad("sites N comes before the first call"));
        }
        self.calls.extend(call);
        Ok(())
    }
}

/// The words after a line's first, if they are one for each name.
fn taken<'a, 't>(first: &Word, rest: &'a [Word<'t>], names: &[&str]) -> Result<&'a [Word<'t>], Bad> {
    let whole = || [&[first.text], names].concat().join(" ");
    if let Some(missing) = names.get(rest.len()) {
        let last = rest.last().unwrap_or(first);
        let column = last.column + last.text.chars().count();
        return Err(Bad { line: last.line, column, what: format!("{missing} is missing: {}", whole()) });
    }
    match rest.get(names.len()) {
        Some(more) => Err(more.bad(format!("nothing comes after {}", whole()))),
        None => Ok(rest),
    }
}

/// The words that lines begin with.
fn right() -> Vec<&'static str> {
    [SITES, OPEN].into_iter().chain(FORMS.iter().map(|form| form.word)).chain([RAW]).collect()
}
