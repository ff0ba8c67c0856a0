//! Counts what Change 8 brought: how many events there are, rows that hold the later ones, bytes behind a block's slots,
//! and records of older editions that are longer than theirs can be.

use super::opened::wrong_parts;
use super::tally::Tally;
use crate::limits::{MOST_BYTES, ROW_WORDS};
use crate::predicates::{Answer, PREDICATES};
use crate::questions::{ask, Refusal};
use crate::record::*;

/// Of a record that passed: 1 for up to 255, 257 for up to 382.
pub const EVENTS_OF_OLDER: &str = "events of a GCR1 or GCR2";
pub const EVENTS_OF_GCR3: &str = "events of a GCR3";
/// Of one that a rehearsal left: 1 for up to 255, 256 for up to 383.
pub const EVENTS_OF_STORE: &str = "events of a rehearsal";

/// Refused by 5 for the count alone: 257 for one too many and 258 for more, or 385 in `GCR3`.
pub const TOO_MANY: &str = "block 0 wrong for n events";

/// The words that some row of a record that passed is not zero in.
pub const ROW_WORD: &str = "row with an event in word";

/// Refused by 7 for bytes behind a block's last slot alone, of which the lowest is the first, the last, or 1 for another.
pub const TAIL_OF_OLDER: &str = "GCR1 or GCR2, tail from byte";
pub const TAIL_OF_GCR3: &str = "GCR3, tail from byte";

/// More bytes than a record of an older edition can have, by what refuses it.
pub const OLDER_AND_LONG: &str = "GCR1 or GCR2, over 19,456 bytes";

/// Named at the 257th slot or event or later, by what refuses it.
pub const REFUSED_LATE: &str = "refused at place 256 or above";

/// A pair whose first event is the 257th or later, by the predicate that it breaks.
pub const BROKEN_LATE: &str = "broken by events from 256 on";

/// A record buffer that 22 refuses: what was enough before, one byte too few, 0 for others.
pub const SHORT_BUFFER: &str = "record buffer of bytes";

/// The first that the older editions do not hold.
const LATER: usize = Edition::GCR2.most_events;

/// A record that was read.
pub fn read(bytes: &[u8], refusal: Option<Refusal>, tally: &mut Tally) {
    let Some(edition) = Edition::of(bytes) else { return };
    let older = edition != Edition::GCR3;
    if older && bytes.len() > Edition::GCR2.most_bytes() {
        tally.occurred(OLDER_AND_LONG, refusal.map_or(0, |refusal| refusal.number));
    }
    if let Some(late) = refusal.filter(|refusal| refusal.place as usize >= LATER) {
        tally.occurred(REFUSED_LATE, late.number);
    }
    match refusal {
        None => passed(&Record::from_bytes(bytes), tally),
        Some(Refusal { number: 5, .. }) if wrong_parts(bytes) == [4] => {
            tally.occurred(TOO_MANY, told_too_many(edition, event_count(bytes)));
        }
        Some(Refusal { number: 7, place }) => {
            let sort = if older { TAIL_OF_OLDER } else { TAIL_OF_GCR3 };
            wrong_tail(bytes, edition, place as usize).into_iter().for_each(|at| tally.occurred(sort, at));
        }
        _ => (),
    }
}

fn passed(record: &Record, tally: &mut Tally) {
    let sort = if record.edition == Edition::GCR3 { EVENTS_OF_GCR3 } else { EVENTS_OF_OLDER };
    tally.occurred(sort, told_events(record.events.len()));
    let has = |word: usize| record.events.iter().any(|event| event.visible[64 * word..][..64].contains(&true));
    (0..ROW_WORDS).filter(|&word| has(word)).for_each(|word| tally.occurred(ROW_WORD, word as u32));
}

fn told_events(n: usize) -> u32 {
    match n {
        1..=255 => 1,
        257..=382 => 257,
        _ => n as u32,
    }
}

fn told_too_many(edition: Edition, n: usize) -> u32 {
    match edition {
        Edition::GCR3 => 385,
        _ => n.min(258) as u32,
    }
}

/// Where the slot itself is right, so that whoever overlooks the bytes behind it passes them.
fn wrong_tail(bytes: &[u8], edition: Edition, place: usize) -> Option<u32> {
    let start = BLOCK_BYTES * (1 + place / edition.block_slots);
    let mut mended = bytes.to_vec();
    mended[start + edition.slots_end()..start + CHECKED_BYTES].fill(0);
    let at = (edition.slots_end()..CHECKED_BYTES).find(|&at| bytes[start + at] != 0)?;
    seal(&mut mended);
    let only = ask(&mended).err() != Some(Refusal { number: 7, place: place as u32 });
    only.then_some(if at == edition.slots_end() || at == CHECKED_BYTES - 1 { at as u32 } else { 1 })
}

/// A record that was judged.
pub fn judged(answers: &[Answer], tally: &mut Tally) {
    for (predicate, answer) in PREDICATES.zip(answers) {
        if matches!(answer, Answer::Broken(LATER.., _)) {
            tally.occurred(BROKEN_LATE, predicate);
        }
    }
}

/// What a rehearsal left.
pub fn rehearsed(record: &Record, tally: &mut Tally) {
    let told = match record.events.len() {
        1..=255 => 1,
        256..=383 => 256,
        n => n as u32,
    };
    tally.occurred(EVENTS_OF_STORE, told);
}

/// The buffer of a rehearsal that 22 refused.
pub fn short_buffer(bytes: usize, tally: &mut Tally) {
    let told = [Edition::GCR2.most_bytes(), MOST_BYTES - 1].contains(&bytes);
    tally.occurred(SHORT_BUFFER, if told { bytes as u32 } else { 0 });
}
