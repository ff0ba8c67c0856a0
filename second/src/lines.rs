//! What the programs write for an input.

use crate::lattice::{by, gives, keeps_apart, pairs};
use crate::limits::MOST_BYTES;
use crate::models::{answers, broken_by, Answers, NAMES};
use crate::openings::OPENINGS_BYTES;
use crate::predicates::{Answer, PREDICATES};
use crate::questions::{ask, Refusal};
use crate::samples::separating;
use crate::store::rehearse;
use std::io::{self, Read, Write};

/// How a line of `lattice` begins for which no record was found.
pub const NOT_SHOWN: &str = "NOT SHOWN";

fn refused_line(refusal: Refusal) -> String {
    format!("refused {} {}\n", refusal.number, refusal.place)
}

pub fn inspect(bytes: &[u8]) -> String {
    inspect_line(ask(bytes).err())
}

pub fn inspect_line(refusal: Option<Refusal>) -> String {
    refusal.map_or("passed\n".to_string(), refused_line)
}

pub fn verdict(bytes: &[u8]) -> String {
    verdict_lines(&answers(bytes))
}

pub fn verdict_lines(answers: &Answers) -> String {
    match answers {
        Ok(answers) => PREDICATES.zip(answers).map(|(number, &answer)| predicate_line(number, answer)).collect(),
        Err(refusal) => refused_line(*refusal),
    }
}

fn predicate_line(number: u32, answer: Answer) -> String {
    match answer {
        Answer::Met => format!("{number} met\n"),
        Answer::Broken(a, b) => format!("{number} broken {a} {b}\n"),
    }
}

/// A model's number and name.
pub fn named(model: u32) -> String {
    format!("{model} {}", NAMES[model as usize - 1])
}

/// `lattice`: of each ordered pair of different models whether the first covers the second, and by which other, or
/// which of these records, counted from 1, is the first to keep them apart.
pub fn lattice(records: &[Answers]) -> String {
    pairs().map(|(i, j)| lattice_line(i, j, records)).collect()
}

/// The same of the repository's files.
pub fn lattice_of_files() -> String {
    let judged: Vec<Answers> = separating().map(|sample| answers(&sample.bytes)).collect();
    lattice(&judged)
}

fn lattice_line(i: u32, j: u32, records: &[Answers]) -> String {
    let (first, second) = (named(i), named(j));
    if gives(i, j) {
        format!("{first} covers {second}\n")
    } else if let Some(middle) = by(i, j) {
        format!("{first} covers {second}, by {}\n", named(middle))
    } else if let Some((k, line)) = first_apart(i, j, records) {
        format!("{first} does not cover {second}: record {k}, {line}")
    } else {
        format!("{NOT_SHOWN}: no record meets {first} and breaks {second}\n")
    }
}

/// The record's number, and what breaks the second model there. A refused record meets and breaks nothing.
fn first_apart(i: u32, j: u32, records: &[Answers]) -> Option<(usize, String)> {
    let mut judged = (1..).zip(records).filter_map(|(k, answers)| Some((k, answers.as_ref().ok()?)));
    let (k, answers) = judged.find(|(_, answers)| keeps_apart(answers, i, j))?;
    let predicate = broken_by(j, answers)?;
    Some((k, predicate_line(predicate, answers[predicate as usize - 1])))
}

/// What `rehearse` reads: a byte of sites, the openings, then the script.
pub struct RehearsalInput<'a> {
    pub sites: u32,
    pub openings: [u8; OPENINGS_BYTES],
    pub script: &'a [u8],
}

impl RehearsalInput<'_> {
    /// Missing bytes are 0.
    pub fn read(input: &[u8]) -> RehearsalInput<'_> {
        let (sites, rest) = input.split_first().map_or((0, input), |(&sites, rest)| (sites as u32, rest));
        let (given, script) = rest.split_at(rest.len().min(OPENINGS_BYTES));
        let mut openings = [0; OPENINGS_BYTES];
        openings[..given.len()].copy_from_slice(given);
        RehearsalInput { sites, openings, script }
    }
}

/// `rehearse`: gives the record or a line.
pub fn rehearsal(input: &[u8]) -> Vec<u8> {
    let input = RehearsalInput::read(input);
    rehearsal_output(&input, &mut vec![0; input.script.len()]).1
}

/// The rehearsal's number, and what is written; the calls' answers are left in their buffer.
pub fn rehearsal_output(input: &RehearsalInput, answers: &mut [u8]) -> (u32, Vec<u8>) {
    let mut record = vec![0; MOST_BYTES];
    let outcome = rehearse(input.sites, &input.openings, input.script, &mut record, answers);
    record.truncate(outcome.length);
    match outcome.number {
        0 => (0, record),
        number => (number, format!("refused {number}\n").into_bytes()),
    }
}

/// Runs a program's reading of its whole input.
pub fn on_standard_streams(writes: impl Fn(&[u8]) -> Vec<u8>) -> io::Result<()> {
    let mut input = Vec::new();
    io::stdin().read_to_end(&mut input)?;
    io::stdout().write_all(&writes(&input))
}
