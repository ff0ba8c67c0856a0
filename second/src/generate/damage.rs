//! Damage that reaches each refusal, sealed again where the question lies deeper.

use super::openings;
use super::random::Random;
use crate::record::*;
use Damage::{Bytes, Length};

/// Most damage keeps the record's length.
#[derive(Clone, Copy)]
enum Damage {
    Length(fn(&mut Random, &mut Vec<u8>)),
    Bytes(fn(&mut Random, &mut [u8])),
}

/// Those of late questions stand here more than once, as earlier damage hides theirs, and so does length, which may
/// leave no letters.
const DAMAGES: [Damage; 29] = [
    Length(length),
    Length(length),
    Length(stretched),
    Length(stretched),
    Bytes(block_check),
    Bytes(checks_out_of_range),
    Bytes(swapped_blocks),
    Bytes(block_0),
    Bytes(letters),
    Bytes(difference),
    Bytes(difference),
    Bytes(header_numbers),
    Length(block_count),
    Bytes(slot_field),
    Bytes(state_or_return),
    Bytes(state_or_return),
    Bytes(state_or_return),
    Bytes(past_the_events),
    Bytes(block_tail),
    Bytes(position),
    Bytes(position),
    Bytes(position),
    Bytes(position),
    Bytes(visible_set),
    Bytes(visible_set),
    Bytes(ring),
    Bytes(ring),
    Bytes(ring),
    Bytes(ring),
];

pub fn once(random: &mut Random, bytes: &mut Vec<u8>) {
    match random.pick(&DAMAGES) {
        Length(damage) => damage(random, bytes),
        Bytes(damage) => damage(random, bytes),
    }
}

/// The last event or the one before it, in what 7, 8, 9 or 10 ask about.
pub fn last_event(random: &mut Random, bytes: &mut [u8]) {
    let n = event_count(bytes);
    let (event, other) = (n - 1 - random.index(2), n - 3);
    match random.below(4) {
        0 => slot_mut(bytes, event)[random.pick(&[9, 12, 15])] = 1,
        1 => {
            let equal = u16_at(slot(bytes, other), 10);
            let position = random.pick(&[equal, n as u16]);
            slot_mut(bytes, event)[10..12].copy_from_slice(&position.to_le_bytes());
        }
        2 => set_visible(bytes, event, event),
        _ => {
            set_visible(bytes, event, other);
            set_visible(bytes, other, event);
        }
    }
    seal(bytes);
}

/// Flips one bit before the checks, and seals.
pub fn any_bit(random: &mut Random, bytes: &mut [u8]) {
    let at = random.index(bytes.len() / BLOCK_BYTES) * BLOCK_BYTES + random.index(CHECKED_BYTES);
    bytes[at] ^= 1 << random.below(8);
    seal(bytes);
}

fn length(random: &mut Random, bytes: &mut Vec<u8>) {
    let short = [0, 0, 1, 2, 3, 3, 511, 512, 513, 1_023, 1_024];
    let long = [19_455, 19_456, 19_457, 19_968, 33_279, 33_280, 33_281, 33_792, 40_000];
    let lengths = [&short[..], &long].concat();
    let by_one = [bytes.len() + 1, bytes.len().saturating_sub(1), bytes.len() + 512];
    let length = if random.chance(50) { random.pick(&lengths) } else { random.pick(&by_one) };
    bytes.resize(length, 0);
    if random.chance(50) {
        seal(bytes);
    }
}

/// An older edition's record with more blocks than it can have, 66 of them being too long for any. It may say that it
/// has as many events, or one check may be wrong.
fn stretched(random: &mut Random, bytes: &mut Vec<u8>) {
    if bytes.len() < BLOCK_BYTES {
        return;
    }
    bytes.resize(random.pick(&[39, 40, 56, 65, 65, 66]) * BLOCK_BYTES, 0);
    bytes[3] = random.pick(b"12");
    if random.chance(30) {
        set_event_count(bytes, random.pick(&[257, 266, 384]));
    }
    seal(bytes);
    if random.chance(30) {
        block_check(random, bytes);
    }
}

/// Often block 0: place 0 is an edge of its own.
fn any_block(random: &mut Random, bytes: &[u8]) -> Option<usize> {
    let blocks = bytes.len() / BLOCK_BYTES;
    (blocks > 0).then(|| if random.chance(25) { 0 } else { random.index(blocks) })
}

fn block_check(random: &mut Random, bytes: &mut [u8]) {
    if let Some(block) = any_block(random, bytes) {
        let within = if random.chance(50) { random.index(BLOCK_BYTES) } else { 508 + random.index(4) };
        bytes[block * BLOCK_BYTES + within] ^= 1 << random.below(8);
    }
}

/// A stored check congruent to the right one, or simply too large.
fn checks_out_of_range(random: &mut Random, bytes: &mut [u8]) {
    let Some(block) = any_block(random, bytes) else { return };
    let at = block * BLOCK_BYTES + random.pick(&[508, 510]);
    let stored = u16_at(bytes, at);
    let large = stored.checked_add(65_521).unwrap_or(65_521 + stored % 15);
    bytes[at..at + 2].copy_from_slice(&large.to_le_bytes());
}

/// Two whole blocks change places, checks and all.
fn swapped_blocks(random: &mut Random, bytes: &mut [u8]) {
    let (Some(a), Some(b)) = (any_block(random, bytes), any_block(random, bytes)) else { return };
    for within in 0..BLOCK_BYTES {
        bytes.swap(a * BLOCK_BYTES + within, b * BLOCK_BYTES + within);
    }
    if random.chance(30) {
        seal(bytes);
    }
}

/// One part of block 0, each as often as any other.
pub fn block_0(random: &mut Random, bytes: &mut [u8]) {
    if bytes.len() < BLOCK_BYTES {
        return;
    }
    let (from, to) = random.pick(&BLOCK_0_PARTS);
    let edition = Edition::of_or_older(bytes);
    let most = edition.most_events as u16;
    match from {
        3 => bytes[3] = random.pick(b"0456789 \xb1\xb2\xb3\x31\x32\x33"),
        4 => set_event_count(bytes, random.pick(&[most + 1, most + 1, most + 1, most + 2, 385, 512, 0xffff])),
        6 => bytes[6] = random.pick(&[0, 9, 16, 128, 255]),
        12 if edition.headed => opening(random, &mut bytes[OPENINGS_AT]),
        _ => {
            let any = from + random.index(to - from);
            bytes[random.pick(&[from, to - 1, any])] ^= 1 << random.below(8);
        }
    }
    seal(bytes);
}

/// Mostly a value under a clear bit; else one bit of the bits or values turned, which may leave openings too.
fn opening(random: &mut Random, openings: &mut [u8]) {
    match random.below(6) {
        0 => openings[random.index(4)] ^= 1 << random.below(8),
        1 => openings[4 + random.index(128)] ^= 1 << random.below(8),
        _ => openings::value_under_clear_bit(random, openings),
    }
}

/// Those of any edition, those of none, or some letter by a bit; not always sealed.
fn letters(random: &mut Random, bytes: &mut [u8]) {
    if bytes.len() < BLOCK_BYTES {
        return;
    }
    match random.below(3) {
        0 => bytes[3] = random.pick(b"123"),
        1 => bytes[..4].copy_from_slice(random.pick(&[b"GCR0", b"GCR4", b"gcr2", b"Gcr3", b"RCG2", b"3RCG"])),
        _ => bytes[random.index(4)] ^= 1 << random.below(8),
    }
    if random.chance(70) {
        seal(bytes);
    }
}

/// Wrong in `GCR1` alone; not always sealed.
fn difference(random: &mut Random, bytes: &mut [u8]) {
    if bytes.len() < BLOCK_BYTES {
        return;
    }
    let difference = random.pick(&[1, 255, 1 << 8, 1 << 16, 1 << 24, u32::MAX]);
    bytes[DIFFERENCE_AT].copy_from_slice(&difference.to_le_bytes());
    if random.chance(40) {
        seal(bytes);
    }
}

fn header_numbers(random: &mut Random, bytes: &mut [u8]) {
    if bytes.len() < BLOCK_BYTES {
        return;
    }
    if random.chance(50) {
        bytes[6] = random.pick(&[0, 1, 7, 8, 9, 16, 255]);
    } else {
        let n = random.pick(&[0, 1, 255, 256, 257, 257, 257, 258, 383, 384, 385, 512, 0x8000, 0xffff]);
        set_event_count(bytes, n);
    }
    seal(bytes);
}

fn set_event_count(bytes: &mut [u8], n: u16) {
    bytes[4..6].copy_from_slice(&n.to_le_bytes());
}

/// Blocks too many or too few for n, or n moved over a block's edge.
fn block_count(random: &mut Random, bytes: &mut Vec<u8>) {
    let whole = bytes.len() / BLOCK_BYTES * BLOCK_BYTES;
    match random.below(3) {
        0 => bytes.resize(whole + BLOCK_BYTES, 0),
        1 => bytes.truncate(whole.saturating_sub(BLOCK_BYTES)),
        _ if whole == 0 => return,
        _ => {
            let whole_block = Edition::of_or_older(bytes).block_slots as i32;
            let moved = random.pick(&[-whole_block, -1, 1, whole_block]) + event_count(bytes) as i32;
            set_event_count(bytes, moved.clamp(0, 400) as u16);
        }
    }
    seal(bytes);
}

fn any_slot(random: &mut Random, bytes: &[u8], below: usize) -> Option<usize> {
    let count = Edition::of_or_older(bytes).slots_in(bytes.len()).min(below);
    (count > 0).then(|| random.index(count))
}

fn any_event(random: &mut Random, bytes: &[u8]) -> Option<usize> {
    let n = if bytes.len() < BLOCK_BYTES { 0 } else { event_count(bytes) };
    any_slot(random, bytes, n.min(Edition::of_or_older(bytes).most_events))
}

/// Often event 0, as with blocks.
fn first_or_any(random: &mut Random, bytes: &[u8]) -> Option<usize> {
    any_event(random, bytes).map(|event| if random.chance(45) { 0 } else { event })
}

fn slot_field(random: &mut Random, bytes: &mut [u8]) {
    let Some(event) = first_or_any(random, bytes) else { return };
    let sites = bytes[6];
    let slot = slot_mut(bytes, event);
    match random.below(7) {
        0 => slot[0] = random.pick(&[2, 3, 128, 255, 1, 0]),
        1 => slot[1] = random.pick(&[sites, sites.wrapping_add(1), 8, 255]),
        2 => slot[8] = random.pick(&[2, 255, 0, 1]),
        3 => slot[random.pick(&[9, 12, 13, 14, 15])] = 1 << random.below(8),
        4 => return_before_start(slot),
        5 => pending_with_value(random, slot),
        _ => (slot[8], slot[4 + random.index(4)]) = (0, 1 << random.below(8)),
    }
    seal(bytes);
}

/// Pending with a return, returned without one, or neither.
fn state_or_return(random: &mut Random, bytes: &mut [u8]) {
    let Some(event) = first_or_any(random, bytes) else { return };
    let slot = slot_mut(bytes, event);
    match random.below(10) {
        0..=2 => slot[3] = random.pick(&[2, 128, 255, 1, 0]),
        3 => slot[24..32].copy_from_slice(&random.pick(&[0u64, 1, u64::MAX]).to_le_bytes()),
        4..=5 => return_at_0(slot),
        _ => pending_with_return(random, slot),
    }
    seal(bytes);
}

/// The rest as it should be.
fn pending_with_return(random: &mut Random, slot: &mut [u8]) {
    slot[3] = 1;
    if slot[0] == 0 {
        slot[4..9].fill(0);
    }
    let end = random.pick(&[1, u64_at(slot, 16).max(2), u64::MAX]);
    slot[24..32].copy_from_slice(&end.to_le_bytes());
}

/// As a pending event looks that is taken as returned.
fn return_at_0(slot: &mut [u8]) {
    let start = u64_at(slot, 16).max(1);
    slot[16..24].copy_from_slice(&start.to_le_bytes());
    slot[3] = 0;
    slot[24..32].fill(0);
}

/// Just below the start, where the start allows it.
fn return_before_start(slot: &mut [u8]) {
    let start = u64_at(slot, 16).max(1);
    slot[16..24].copy_from_slice(&start.to_le_bytes());
    slot[24..32].copy_from_slice(&(start - 1).to_le_bytes());
}

/// Right for a write, wrong for a read.
fn pending_with_value(random: &mut Random, slot: &mut [u8]) {
    slot[0] = random.pick(&[0, 0, 1]);
    (slot[3], slot[8]) = (1, 1);
    slot[24..32].fill(0);
}

fn past_the_events(random: &mut Random, bytes: &mut [u8]) {
    if let Some(slot) = any_slot(random, bytes, usize::MAX) {
        let (n, edition) = (event_count(bytes), Edition::of_or_older(bytes));
        let last = edition.slots_in(bytes.len());
        let slot = if n < last { n + random.index(last - n) } else { slot };
        slot_mut(bytes, slot)[random.index(edition.slot_bytes)] = 1 << random.below(8);
        seal(bytes);
    }
}

pub fn block_tail(random: &mut Random, bytes: &mut [u8]) {
    let with_slots = (bytes.len() / BLOCK_BYTES).saturating_sub(1);
    if with_slots > 0 {
        let block = 1 + random.index(with_slots);
        let end = Edition::of_or_older(bytes).slots_end();
        let any = end + random.index(CHECKED_BYTES - end);
        let within = random.pick(&[end, CHECKED_BYTES - 1, any]);
        bytes[block * BLOCK_BYTES + within] ^= 1 << random.below(8);
        seal(bytes);
    }
}

fn position(random: &mut Random, bytes: &mut [u8]) {
    let (Some(event), Some(other)) = (first_or_any(random, bytes), any_event(random, bytes)) else { return };
    let n = event_count(bytes) as u16;
    let equal = u16_at(slot(bytes, other), 10);
    let position = random.pick(&[equal, equal, equal, n, n.wrapping_add(1), 256, 384, u16::MAX]);
    slot_mut(bytes, event)[10..12].copy_from_slice(&position.to_le_bytes());
    seal(bytes);
}

fn set_visible(bytes: &mut [u8], a: usize, b: usize) {
    slot_mut(bytes, b)[SET_AT + a / 8] |= 1 << (a % 8);
}

fn visible_set(random: &mut Random, bytes: &mut [u8]) {
    let Some(event) = first_or_any(random, bytes) else { return };
    let most = Edition::of_or_older(bytes).most_events;
    let n = event_count(bytes).min(most);
    let seen = match random.below(4) {
        _ if n == most => event,
        0 => event,
        1 => n,
        2 => most - 1,
        _ => n + random.index(most - n),
    };
    set_visible(bytes, seen, event);
    seal(bytes);
}

/// A ring of two or more events, through what is visible already or not.
fn ring(random: &mut Random, bytes: &mut [u8]) {
    let Some(first) = any_event(random, bytes) else { return };
    let mut from = first;
    for _ in 0..1 + random.below(4) {
        let Some(to) = any_event(random, bytes).filter(|&to| to != from) else { break };
        set_visible(bytes, from, to);
        from = to;
    }
    if from != first {
        set_visible(bytes, from, first);
    }
    seal(bytes);
}
