//! Questions 3 to 10 in one pass a question, visible sets kept as rows.

use super::openings::{Openings, BYTES, NONE};
use super::refused;
use super::rows::*;

const BLOCK: usize = 512;

/// What of a block its check is made of.
const CHECKED: usize = 508;

/// The bytes of a slot in the older editions and in the last. As many fill a block as fit before its check, and the
/// visible set fills a slot, so that the rest follows.
pub const NARROW: usize = 64;
pub const WIDE: usize = 80;

/// By the letters of a record that passes question 5.
#[inline]
pub fn is_wide(record: &[u8]) -> bool {
    record[3] == b'3'
}

pub const fn slots_of_block(slot_bytes: usize) -> usize {
    CHECKED / slot_bytes
}

/// As many as a slot has bits for.
const fn most_events(slot_bytes: usize) -> usize {
    8 * (slot_bytes - 32)
}

/// Where the slot of an event begins.
#[inline]
pub fn slot_at<const SLOT: usize>(event: usize) -> usize {
    let slots = slots_of_block(SLOT);
    BLOCK * (1 + event / slots) + SLOT * (event % slots)
}

#[inline]
pub fn slot<const SLOT: usize>(record: &[u8], event: usize) -> &[u8; SLOT] {
    record[slot_at::<SLOT>(event)..].first_chunk().expect("question 6")
}

#[inline]
pub fn word<const SLOT: usize>(slot: &[u8; SLOT], at: usize) -> u64 {
    u64::from_le_bytes(*slot[at..].first_chunk().expect("within a slot"))
}

#[inline]
pub fn position<const SLOT: usize>(slot: &[u8; SLOT]) -> usize {
    u16::from_le_bytes([slot[10], slot[11]]) as usize
}

/// Words past a narrow slot's set are zero.
#[inline]
fn row<const SLOT: usize>(slot: &[u8; SLOT]) -> Row {
    std::array::from_fn(|at| if 64 * at < most_events(SLOT) { word(slot, 32 + 8 * at) } else { 0 })
}

/// The reading call over a lent work slice.
pub fn read(record: &[u8], work: &mut [u64]) -> u64 {
    if work.len() < WORDS * ROWS {
        return refused(1, 0);
    }
    let rows: &mut [Row] = &mut work.as_chunks_mut().0[..ROWS];
    match fill(record, rows) {
        Ok(n) => {
            rows[n..].fill(EMPTY);
            0
        }
        Err((number, place)) => {
            rows.fill(EMPTY);
            refused(number, place)
        }
    }
}

/// As many events as a record says that it has, if it can have them: so many rows are enough.
pub fn claimed(record: &[u8]) -> usize {
    record.get(4..6).map_or(0, |count| usize::from(u16::from_le_bytes([count[0], count[1]])).min(ROWS))
}

/// Fills the first n rows; what a refusal leaves in them is not settled.
pub fn fill(record: &[u8], rows: &mut [Row]) -> Result<usize, (u32, usize)> {
    let length = record.len();
    if length == 0 || length > BLOCK * (1 + ROWS / slots_of_block(WIDE)) || !length.is_multiple_of(BLOCK) {
        return Err((3, 0));
    }
    if let Some(block) = wrong_check(record) {
        return Err((4, block));
    }
    let n = header(record).ok_or((5, 0))?;
    match is_wide(record) {
        true => slots::<WIDE>(record, n, rows)?,
        false => slots::<NARROW>(record, n, rows)?,
    }
    lowest_on_ring(&rows[..n]).map_or(Ok(n), |event| Err((10, event)))
}

/// Questions 6 to 9.
fn slots<const SLOT: usize>(record: &[u8], n: usize, rows: &mut [Row]) -> Result<(), (u32, usize)> {
    if record.len() / BLOCK != 1 + n.div_ceil(slots_of_block(SLOT)) {
        return Err((6, 0));
    }
    wrong_slot::<SLOT>(record, n).map_or(Ok(()), |slot| Err((7, slot)))?;
    wrong_position::<SLOT>(record, n).map_or(Ok(()), |event| Err((8, event)))?;
    wrong_visible::<SLOT>(record, n, rows).map_or(Ok(()), |event| Err((9, event)))
}

fn wrong_check(record: &[u8]) -> Option<usize> {
    let (blocks, _) = record.as_chunks::<BLOCK>();
    blocks.iter().enumerate().position(|(number, block)| {
        let stored = u32::from_le_bytes([block[508], block[509], block[510], block[511]]);
        stored != check(number as u32, block)
    })
}

/// Eight sums side by side, put together at the end with one remainder each.
/// Of the first 248 words, word 8r + l weighs 248 - 8r - l in B then: 8 for each of
/// the 30 - r rows after its own, by `later`, and 8 - l by the lanes of A.
/// Within a caller, what follows the rows takes nearly twice the instructions.
#[inline(never)]
pub fn check(number: u32, block: &[u8; BLOCK]) -> u32 {
    let (words, _) = block[..CHECKED].as_chunks::<2>();
    let (rows, rest) = words.as_chunks::<8>();
    let [sums, later] = sums_of_rows(rows.first_chunk().expect("31 rows"));
    let (mut a, mut b) = (number + 1, 240 * (number + 1));
    for lane in 0..8 {
        a += sums[lane];
        b += a + 8 * later[lane];
    }
    for word in rest {
        a += u16::from_le_bytes(*word) as u32;
        b += a;
    }
    (a % 65_521) | ((b % 65_521) << 16)
}

/// By itself it compiles to vectors, whatever becomes of its callers: the lanes end side by side in memory.
#[inline(never)]
fn sums_of_rows(rows: &[[[u8; 2]; 8]; 31]) -> [[u32; 8]; 2] {
    let (mut sums, mut later) = ([0u32; 8], [0u32; 8]);
    for row in rows {
        for lane in 0..8 {
            later[lane] += sums[lane];
            sums[lane] += u16::from_le_bytes(row[lane]) as u32;
        }
    }
    [sums, later]
}

#[inline]
fn all_zero(bytes: &[u8]) -> bool {
    bytes.iter().fold(0, |all, byte| all | byte) == 0
}

fn header(record: &[u8]) -> Option<usize> {
    let n = u16::from_le_bytes([record[4], record[5]]) as usize;
    let right = matches!(record[6], 1..=8) && record[7] == 0 && all_zero(&record[144..CHECKED]);
    let of_edition = match &record[..4] {
        b"GCR1" => n <= most_events(NARROW) && all_zero(&record[8..144]),
        b"GCR2" => n <= most_events(NARROW) && !openings_at(record).has_value_under_clear_bit(),
        b"GCR3" => n <= most_events(WIDE) && !openings_at(record).has_value_under_clear_bit(),
        _ => false,
    };
    (right && of_edition).then_some(n)
}

#[inline]
fn openings_at(record: &[u8]) -> Openings {
    Openings::new(record[12..].first_chunk::<BYTES>().expect("a block"))
}

/// Of a record that passes question 5.
pub fn openings(record: &[u8]) -> Openings {
    match record[3] {
        b'1' => NONE,
        _ => openings_at(record),
    }
}

/// Likewise; `GCR1` has zeros there.
pub fn difference(record: &[u8]) -> u64 {
    u32::from_le_bytes([record[8], record[9], record[10], record[11]]) as u64
}

fn wrong_slot<const SLOT: usize>(record: &[u8], n: usize) -> Option<usize> {
    let (sites, count) = (record[6], slots_of_block(SLOT));
    for (k, block) in record[BLOCK..].chunks_exact(BLOCK).enumerate() {
        let tail = all_zero(&block[count * SLOT..CHECKED]);
        let (slots, _) = block[..count * SLOT].as_chunks::<SLOT>();
        for (within, slot) in slots.iter().enumerate() {
            let event = count * k + within;
            let right = if event < n { laid_out(slot, sites) } else { all_zero(slot) };
            if !right || (within == count - 1 && !tail) {
                return Some(event);
            }
        }
    }
    None
}

#[inline]
fn laid_out<const SLOT: usize>(slot: &[u8; SLOT], sites: u8) -> bool {
    let head = word(slot, 0);
    let (kind, site, state) = (head as u8, (head >> 8) as u8, (head >> 24) as u8);
    let second = word(slot, 8);
    let present = second as u8;
    // Byte 9 and bytes 12 to 15; the position between them is left for later.
    let zeros = second & 0xffff_ffff_0000_ff00 == 0;
    let (start, end) = (word(slot, 16), word(slot, 24));
    let times = if state == 1 { end == 0 } else { end >= start };
    let value = match present {
        1 => kind == 1 || state == 0,
        0 => kind == 0 && head >> 32 == 0,
        _ => false,
    };
    kind <= 1 && site < sites && state <= 1 && zeros && times && value
}

fn wrong_position<const SLOT: usize>(record: &[u8], n: usize) -> Option<usize> {
    let mut taken = EMPTY;
    (0..n).find(|&event| {
        let position = position(slot::<SLOT>(record, event));
        if position >= n || has(&taken, position) {
            return true;
        }
        add(&mut taken, position);
        false
    })
}

fn wrong_visible<const SLOT: usize>(record: &[u8], n: usize, rows: &mut [Row]) -> Option<usize> {
    let events = below(n);
    (0..n).find(|&event| {
        let row = row(slot::<SLOT>(record, event));
        rows[event] = row;
        has(&row, event) || !is_empty(&minus(&row, &events))
    })
}

fn lowest_on_ring(rows: &[Row]) -> Option<usize> {
    if order_of(rows).is_some() {
        return None;
    }
    let mut reach = rows.to_vec();
    close(&mut reach);
    (0..rows.len()).find(|&event| has(&reach[event], event))
}

/// An order in which every event stands after all in its column, or none.
pub fn order_of(columns: &[Row]) -> Option<([u16; ROWS], usize)> {
    let n = columns.len();
    let (mut order, mut done) = ([0; ROWS], 0);
    let (mut stack, mut depth) = ([0u16; ROWS], 0);
    let (mut fresh, mut open) = (below(n), EMPTY);
    while let Some(root) = lowest(&fresh) {
        let mut next = Some(root);
        loop {
            if let Some(event) = next {
                remove(&mut fresh, event);
                add(&mut open, event);
                stack[depth] = event as u16;
                depth += 1;
            }
            let Some(top) = depth.checked_sub(1) else { break };
            let event = stack[top] as usize;
            if !is_empty(&both(&columns[event], &open)) {
                return None;
            }
            next = lowest(&both(&columns[event], &fresh));
            if next.is_none() {
                remove(&mut open, event);
                depth = top;
                order[done] = event as u16;
                done += 1;
            }
        }
    }
    Some((order, done))
}

/// Warshall's closure, a row at a time.
pub fn close(columns: &mut [Row]) {
    for middle in 0..columns.len() {
        let before = columns[middle];
        for column in columns.iter_mut() {
            if has(column, middle) {
                *column = union(column, &before);
            }
        }
    }
}
