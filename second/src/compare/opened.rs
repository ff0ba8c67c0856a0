//! Counts what Change 3 brought: the editions, what is wrong in block 0, the openings, and what reads hold of them.

use super::tally::Tally;
use crate::limits::MOST_SITES;
use crate::openings::{Openings, OBJECTS, OPENINGS_BYTES};
use crate::predicates::Answer;
use crate::questions::Refusal;
use crate::record::*;

/// By the letters, whatever else the record has.
pub const GCR1: &str = "record GCR1";
pub const GCR2: &str = "record GCR2";
pub const GCR3: &str = "record GCR3";
pub const NO_EDITION: &str = "record of no edition";

/// Refused by 5 for one part of block 0 alone, which is told by its first byte.
pub const WRONG_IN_GCR1: &str = "GCR1, block 0 wrong from byte";
pub const WRONG_IN_GCR2: &str = "GCR2, block 0 wrong from byte";
pub const WRONG_IN_GCR3: &str = "GCR3, block 0 wrong from byte";
pub const WRONG_IN_NONE: &str = "GCR and no edition, wrong from byte";

/// Openings of a record that passed, or of a rehearsal that ran.
pub const NO_OPENINGS: &str = "no openings";
pub const SOME_OPENINGS: &str = "some openings";
pub const ALL_OPENINGS: &str = "openings of all objects";

/// Openings that 40 refuses, by what refused the rehearsal.
pub const WRONG_LENGTH: &str = "openings of another length";
pub const UNDER_CLEAR_BIT: &str = "value under a clear bit";
/// The program's input ended within them.
pub const CUT_SHORT: &str = "openings cut short";

/// A returned read that sees no write on its object, by that object.
pub const HOLDS_OPENING: &str = "no write: holds the opening";
pub const HOLDS_OPENING_0: &str = "no write: holds the opening 0";
pub const NONE_FOR_OPENING: &str = "no write: none, not the opening";
pub const NONE_FOR_OPENING_0: &str = "no write: none, not the opening 0";
pub const OTHER_FOR_OPENING: &str = "no write: another than the opening";
pub const HOLDS_NONE: &str = "no write, no opening: holds none";
pub const ZERO_FOR_NONE: &str = "no write, no opening: holds 0";
pub const OTHER_FOR_NONE: &str = "no write, no opening: holds another";
/// One that sees a write on an object with an opening.
pub const WRITE_OVER_OPENING: &str = "a write: holds it, not the opening";
pub const OPENING_OVER_WRITE: &str = "a write: holds the opening";

/// What breaks predicate 1: the lowest failing read, by what it should hold.
pub const BREAK_AT_OPENING: &str = "RVal's break: an opening is due";
pub const BREAK_AT_NONE: &str = "RVal's break: none is due";
pub const BREAK_AT_WRITE: &str = "RVal's break: a write's value is due";

/// A record that was read.
pub fn edition(bytes: &[u8], refusal: Option<Refusal>, tally: &mut Tally) {
    let sort = match bytes.get(..4) {
        Some(b"GCR1") => GCR1,
        Some(b"GCR2") => GCR2,
        Some(b"GCR3") => GCR3,
        _ => NO_EDITION,
    };
    tally.occurred(sort, refusal.map_or(0, |refusal| refusal.number));
    match refusal {
        None if sort != GCR1 => openings_held(&bytes[OPENINGS_AT], tally),
        Some(Refusal { number: 5, .. }) => wrong_part(bytes, tally),
        _ => (),
    }
}

/// The parts of block 0 that are wrong, by their first bytes.
pub fn wrong_parts(bytes: &[u8]) -> Vec<usize> {
    BLOCK_0_PARTS.into_iter().filter(|&part| !is_right(bytes, part)).map(|part| part.0).collect()
}

/// Only where it is the only one, so that whoever overlooks it passes the record.
fn wrong_part(bytes: &[u8], tally: &mut Tally) {
    let sort = match bytes[3] {
        b'1' => WRONG_IN_GCR1,
        b'2' => WRONG_IN_GCR2,
        b'3' => WRONG_IN_GCR3,
        _ => WRONG_IN_NONE,
    };
    if let [only] = wrong_parts(bytes)[..] {
        tally.occurred(sort, only as u32);
    }
}

fn is_right(bytes: &[u8], (from, to): (usize, usize)) -> bool {
    match from {
        0..=2 => bytes[from] == b"GCR"[from],
        3 => matches!(bytes[3], b'1' | b'2' | b'3'),
        4 => event_count(bytes) <= if bytes[3] == b'3' { Edition::GCR3 } else { Edition::GCR2 }.most_events,
        6 => (1..=MOST_SITES).contains(&(bytes[6] as usize)),
        8 if bytes[3] != b'1' => true,
        12 if bytes[3] != b'1' => Openings::from_bytes(&bytes[from..to]).is_some(),
        _ => bytes[from..to].iter().all(|&byte| byte == 0),
    }
}

fn openings_held(bytes: &[u8], tally: &mut Tally) {
    let openings = Openings::from_bytes(bytes).expect("not refused");
    let sort = match openings.count() {
        0 => NO_OPENINGS,
        OBJECTS => ALL_OPENINGS,
        _ => SOME_OPENINGS,
    };
    tally.occurred(sort, 0);
}

/// The openings that a rehearsal was given, with its number.
pub fn openings_given(number: u32, bytes: &[u8], tally: &mut Tally) {
    if bytes.len() != OPENINGS_BYTES {
        tally.occurred(WRONG_LENGTH, number);
    } else if Openings::from_bytes(bytes).is_none() {
        tally.occurred(UNDER_CLEAR_BIT, number);
    } else if number == 0 {
        openings_held(bytes, tally);
    }
}

pub fn cut_short(number: u32, tally: &mut Tally) {
    tally.occurred(CUT_SHORT, number);
}

/// Predicate 1 of a record.
pub fn read_broken(record: &Record, answer: Answer, tally: &mut Tally) {
    let Answer::Broken(read, named) = answer else { return };
    let opening = record.openings.of(record.events[read].object as usize);
    let sort = match opening {
        _ if read != named => BREAK_AT_WRITE,
        Some(_) => BREAK_AT_OPENING,
        None => BREAK_AT_NONE,
    };
    tally.occurred(sort, 1);
}

/// What each returned read of a record holds beside its opening.
pub fn reads(record: &Record, tally: &mut Tally) {
    let openings = record.openings;
    for read in record.events.iter().filter(|event| event.is_read() && !event.pending()) {
        let opening = openings.of(read.object as usize);
        let sort = match last_write(record, read) {
            None => Some(sort_of_unwritten(read.value, opening)),
            Some(write) => sort_of_written(read.value, write.value, opening),
        };
        if let Some(sort) = sort {
            tally.occurred(sort, told_object(read.object));
        }
    }
}

fn last_write<'a>(record: &'a Record, read: &Event) -> Option<&'a Event> {
    let seen = record.events.iter().enumerate().filter(|(number, _)| read.visible[*number]);
    let writes = seen.map(|(_, event)| event).filter(|event| event.is_write() && event.object == read.object);
    writes.max_by_key(|write| write.position)
}

fn sort_of_unwritten(held: Option<u32>, opening: Option<u32>) -> &'static str {
    match (held, opening) {
        (Some(0), Some(0)) => HOLDS_OPENING_0,
        (None, Some(0)) => NONE_FOR_OPENING_0,
        (None, Some(_)) => NONE_FOR_OPENING,
        (Some(held), Some(opening)) if held == opening => HOLDS_OPENING,
        (Some(_), Some(_)) => OTHER_FOR_OPENING,
        (None, None) => HOLDS_NONE,
        (Some(0), None) => ZERO_FOR_NONE,
        (Some(_), None) => OTHER_FOR_NONE,
    }
}

/// Where the write and an opening differ.
fn sort_of_written(held: Option<u32>, written: Option<u32>, opening: Option<u32>) -> Option<&'static str> {
    if opening.is_none() || opening == written {
        None
    } else if held == written {
        Some(WRITE_OVER_OPENING)
    } else {
        (held == opening).then_some(OPENING_OVER_WRITE)
    }
}

/// The last that can have an opening, the first that cannot, and the last of all; 0 for any other.
fn told_object(object: u8) -> u32 {
    match object {
        31 | 32 | 255 => object as u32,
        _ => 0,
    }
}
