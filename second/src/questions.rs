//! Questions 3 to 10, each giving the place of its no.

use crate::limits::{MOST_BYTES, MOST_EVENTS, MOST_SITES};
use crate::record::*;
use crate::relations::Pairs;

#[derive(Clone, Copy, Debug, PartialEq, Eq)]
pub struct Refusal {
    pub number: u32,
    pub place: u32,
}

/// The place of the no, or nothing where the answer is yes.
/// A question may rely on a yes to all those before it.
type Question = fn(&[u8]) -> Option<usize>;

const OF_A_RECORD: [(u32, Question); 8] = [
    (3, length),
    (4, block_checks),
    (5, header),
    (6, block_count),
    (7, slots),
    (8, positions),
    (9, visible_sets),
    (10, rings),
];

pub fn ask(bytes: &[u8]) -> Result<Record, Refusal> {
    for (number, question) in OF_A_RECORD {
        if let Some(place) = question(bytes) {
            return Err(Refusal { number, place: place as u32 });
        }
    }
    Ok(Record::from_bytes(bytes))
}

fn no_at_zero(yes: bool) -> Option<usize> {
    (!yes).then_some(0)
}

fn all_zero(bytes: &[u8]) -> bool {
    bytes.iter().all(|&byte| byte == 0)
}

fn length(bytes: &[u8]) -> Option<usize> {
    let within = (BLOCK_BYTES..=MOST_BYTES).contains(&bytes.len());
    no_at_zero(within && bytes.len().is_multiple_of(BLOCK_BYTES))
}

fn block_checks(bytes: &[u8]) -> Option<usize> {
    let mut blocks = bytes.chunks(BLOCK_BYTES).enumerate();
    blocks.position(|(number, block)| stored_check(block) != check(number, block))
}

fn header(bytes: &[u8]) -> Option<usize> {
    let sites = bytes[6] as usize;
    let laid_out = Edition::of(bytes).is_some_and(|edition| {
        edition.heads(bytes) && event_count(bytes) <= edition.most_events && (1..=MOST_SITES).contains(&sites)
    });
    no_at_zero(laid_out)
}

/// Of a record that has the letters of one, by question 5.
fn edition(bytes: &[u8]) -> Edition {
    Edition::of(bytes).expect("question 5")
}

fn block_count(bytes: &[u8]) -> Option<usize> {
    no_at_zero(bytes.len() / BLOCK_BYTES == edition(bytes).blocks_for(event_count(bytes)))
}

fn slots(bytes: &[u8]) -> Option<usize> {
    let count = edition(bytes).slots_in(bytes.len());
    (0..count).find(|&number| !slot_right(bytes, number) || !tail_right(bytes, number))
}

fn slot_right(bytes: &[u8], number: usize) -> bool {
    let slot = slot(bytes, number);
    if number >= event_count(bytes) {
        return all_zero(slot);
    }
    fields_right(slot, bytes[6]) && value_right(slot) && times_right(slot)
}

/// What is between a block's last slot and its check counts to that slot.
fn tail_right(bytes: &[u8], number: usize) -> bool {
    let edition = edition(bytes);
    if number % edition.block_slots != edition.block_slots - 1 {
        return true;
    }
    let block = &bytes[BLOCK_BYTES * (1 + number / edition.block_slots)..];
    all_zero(&block[edition.slots_end()..CHECKED_BYTES])
}

fn fields_right(slot: &[u8], sites: u8) -> bool {
    slot[0] <= 1 && slot[1] < sites && slot[3] <= 1 && slot[9] == 0 && all_zero(&slot[12..16])
}

fn value_right(slot: &[u8]) -> bool {
    let (write, pending, present) = (slot[0] == 1, slot[3] == 1, slot[8] == 1);
    let as_said = present || (slot[8] == 0 && u32_at(slot, 4) == 0);
    let of_write = !write || present;
    let of_pending_read = write || !pending || !present;
    as_said && of_write && of_pending_read
}

fn times_right(slot: &[u8]) -> bool {
    let (start, end) = (u64_at(slot, 16), u64_at(slot, 24));
    if slot[3] == 1 {
        end == 0
    } else {
        end >= start
    }
}

fn position(bytes: &[u8], event: usize) -> usize {
    u16_at(slot(bytes, event), 10) as usize
}

fn positions(bytes: &[u8]) -> Option<usize> {
    let n = event_count(bytes);
    (0..n).find(|&event| {
        let own = position(bytes, event);
        own >= n || (0..event).any(|lower| position(bytes, lower) == own)
    })
}

fn visible_sets(bytes: &[u8]) -> Option<usize> {
    let n = event_count(bytes);
    (0..n).find(|&event| {
        let visible = visible_of(slot(bytes, event));
        visible[event] || (n..MOST_EVENTS).any(|other| visible[other])
    })
}

fn rings(bytes: &[u8]) -> Option<usize> {
    let events = Record::from_bytes(bytes).events;
    let vis = Pairs::such_that(events.len(), |a, b| events[b].visible[a]);
    let reaches = vis.one_or_more_steps();
    (0..events.len()).find(|&event| reaches.has(event, event))
}
