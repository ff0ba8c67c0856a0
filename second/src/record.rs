//! The record as document 01 and Changes 3, 4 and 8 lay it out: editions, events, slots, blocks and their checks.

use crate::limits::{MOST_BYTES, MOST_EVENTS};
use crate::openings::{Openings, OPENINGS_BYTES};

pub const BLOCK_BYTES: usize = 512;
pub const CHECKED_BYTES: usize = 508;

/// The byte of a slot at which the visible set begins; it fills the rest.
pub const SET_AT: usize = 32;

/// The parts of block 0 before its check, each from its first byte to the next part's: the four letters, the count, the
/// sites, and the difference of clocks and the openings, which are zero in `GCR1`, and what is zero in all.
pub const BLOCK_0_PARTS: [(usize, usize); 11] =
    [(0, 1), (1, 2), (2, 3), (3, 4), (4, 6), (6, 7), (7, 8), (8, 12), (12, 144), (144, 148), (148, 508)];

/// Where the difference of clocks and the openings stand in block 0.
pub const DIFFERENCE_AT: std::ops::Range<usize> = 8..12;
pub const OPENINGS_AT: std::ops::Range<usize> = 12..12 + OPENINGS_BYTES;

#[derive(Clone, Copy, Debug, PartialEq, Eq)]
pub enum Kind {
    Read,
    Write,
}

pub type EventSet = [bool; MOST_EVENTS];

#[derive(Clone, Debug, PartialEq, Eq)]
pub struct Event {
    pub kind: Kind,
    pub site: u8,
    pub object: u8,
    pub value: Option<u32>,
    pub position: u16,
    pub start: u64,
    /// The return; a pending event has none.
    pub end: Option<u64>,
    /// The events visible to this one.
    pub visible: EventSet,
}

/// How the records of an edition are laid out.
#[derive(Clone, Copy, Debug, PartialEq, Eq)]
pub struct Edition {
    pub letters: &'static [u8; 4],
    pub most_events: usize,
    pub slot_bytes: usize,
    pub block_slots: usize,
    /// Block 0 has the difference of clocks and the openings.
    pub headed: bool,
}

#[derive(Clone, Debug, PartialEq, Eq)]
pub struct Record {
    pub edition: Edition,
    /// The sites' clocks may differ by so many milliseconds; `GCR1` counts as 0.
    pub difference: u32,
    /// `GCR1` has none.
    pub openings: Openings,
    pub sites: u8,
    pub events: Vec<Event>,
}

impl Event {
    fn new(kind: Kind, site: u8, object: u8, value: Option<u32>) -> Event {
        Event { kind, site, object, value, position: 0, start: 0, end: Some(0), visible: [false; MOST_EVENTS] }
    }

    pub fn write(site: u8, object: u8, value: u32) -> Event {
        Event::new(Kind::Write, site, object, Some(value))
    }

    pub fn read(site: u8, object: u8, value: Option<u32>) -> Event {
        Event::new(Kind::Read, site, object, value)
    }

    pub fn at(mut self, start: u64, end: u64) -> Event {
        (self.start, self.end) = (start, Some(end));
        self
    }

    pub fn pending_from(mut self, start: u64) -> Event {
        (self.start, self.end) = (start, None);
        self
    }

    pub fn sees(mut self, events: &[usize]) -> Event {
        for &event in events {
            self.visible[event] = true;
        }
        self
    }

    pub fn is_read(&self) -> bool {
        self.kind == Kind::Read
    }

    pub fn is_write(&self) -> bool {
        self.kind == Kind::Write
    }

    pub fn pending(&self) -> bool {
        self.end.is_none()
    }

    pub fn to_slot(&self, edition: Edition) -> Vec<u8> {
        let mut slot = vec![0; edition.slot_bytes];
        slot[0] = self.is_write() as u8;
        slot[1] = self.site;
        slot[2] = self.object;
        slot[3] = self.pending() as u8;
        slot[4..8].copy_from_slice(&self.value.unwrap_or(0).to_le_bytes());
        slot[8] = self.value.is_some() as u8;
        slot[10..12].copy_from_slice(&self.position.to_le_bytes());
        slot[16..24].copy_from_slice(&self.start.to_le_bytes());
        if let Some(end) = self.end {
            slot[24..32].copy_from_slice(&end.to_le_bytes());
        }
        for event in (0..edition.most_events).filter(|&event| self.visible[event]) {
            slot[SET_AT + event / 8] |= 1 << (event % 8);
        }
        slot
    }

    /// Reads a slot that is as laid out.
    pub fn from_slot(slot: &[u8]) -> Event {
        let value = (slot[8] == 1).then(|| u32_at(slot, 4));
        let kind = if slot[0] == 1 { Kind::Write } else { Kind::Read };
        let mut event = Event::new(kind, slot[1], slot[2], value);
        event.start = u64_at(slot, 16);
        // The state says whether there is a return; what a pending event has in its place is not looked at.
        event.end = (slot[3] == 0).then(|| u64_at(slot, 24));
        event.position = u16_at(slot, 10);
        event.visible = visible_of(slot);
        event
    }
}

impl Edition {
    pub const GCR1: Edition =
        Edition { letters: b"GCR1", most_events: 256, slot_bytes: 64, block_slots: 7, headed: false };
    pub const GCR2: Edition = Edition { letters: b"GCR2", headed: true, ..Edition::GCR1 };
    pub const GCR3: Edition =
        Edition { letters: b"GCR3", most_events: 384, slot_bytes: 80, block_slots: 6, headed: true };

    pub const ALL: [Edition; 3] = [Edition::GCR1, Edition::GCR2, Edition::GCR3];

    /// By the letters alone.
    pub fn of(bytes: &[u8]) -> Option<Edition> {
        Edition::ALL.into_iter().find(|edition| bytes.starts_with(edition.letters))
    }

    /// Whatever the letters: bytes of no edition are taken apart as the older ones are.
    pub fn of_or_older(bytes: &[u8]) -> Edition {
        Edition::of(bytes).unwrap_or(Edition::GCR1)
    }

    /// The first to have room for so many events.
    pub fn for_events(count: usize) -> Edition {
        let with_room = Edition::ALL.into_iter().find(|edition| count <= edition.most_events);
        with_room.unwrap_or(Edition::GCR3)
    }

    /// This one, or else the first that has a difference and openings.
    pub fn to_be_headed(self) -> Edition {
        if self.headed {
            self
        } else {
            Edition::GCR2
        }
    }

    pub const fn blocks_for(&self, events: usize) -> usize {
        1 + events.div_ceil(self.block_slots)
    }

    pub const fn most_bytes(&self) -> usize {
        BLOCK_BYTES * self.blocks_for(self.most_events)
    }

    /// The byte of a block at which its last slot ends.
    pub const fn slots_end(&self) -> usize {
        self.block_slots * self.slot_bytes
    }

    /// How many slots there are in a record of so many bytes.
    pub fn slots_in(&self, bytes: usize) -> usize {
        self.block_slots * (bytes / BLOCK_BYTES).saturating_sub(1)
    }

    /// The byte at which a slot begins.
    pub fn slot_start(&self, number: usize) -> usize {
        BLOCK_BYTES * (1 + number / self.block_slots) + self.slot_bytes * (number % self.block_slots)
    }

    /// Whether block 0 has these letters and no more than its edition has there. Count and sites are not looked at.
    pub fn heads(&self, bytes: &[u8]) -> bool {
        let zero = |from: usize, to: usize| bytes[from..to].iter().all(|&byte| byte == 0);
        let rest = match self.headed {
            false => zero(DIFFERENCE_AT.start, OPENINGS_AT.end),
            true => Openings::from_bytes(&bytes[OPENINGS_AT]).is_some(),
        };
        bytes.starts_with(self.letters) && zero(7, DIFFERENCE_AT.start) && rest && zero(OPENINGS_AT.end, CHECKED_BYTES)
    }
}

const _: () = {
    let (old, new) = (Edition::GCR1, Edition::GCR3);
    assert!(8 * (old.slot_bytes - SET_AT) == old.most_events && 8 * (new.slot_bytes - SET_AT) == new.most_events);
    assert!(new.most_events == MOST_EVENTS && new.most_bytes() == MOST_BYTES);
};

impl Record {
    /// Events in arbitration order as given, of `GCR1` where it has room for them.
    pub fn in_order(sites: u8, events: Vec<Event>) -> Record {
        let edition = Edition::for_events(events.len());
        let mut record = Record { edition, difference: 0, openings: Openings::none(), sites, events };
        for (position, event) in record.events.iter_mut().enumerate() {
            event.position = position as u16;
        }
        record
    }

    /// The same in another edition, but for what this one does not have.
    pub fn in_edition(mut self, edition: Edition) -> Record {
        if !edition.headed {
            (self.difference, self.openings) = (0, Openings::none());
        }
        self.edition = edition;
        self
    }

    /// The same events with these openings, of `GCR2` if they were of `GCR1`.
    pub fn opened(self, openings: Openings) -> Record {
        Record { edition: self.edition.to_be_headed(), openings, ..self }
    }

    /// The same events at sites whose clocks may differ, of `GCR2` if they were of `GCR1`.
    pub fn apart(self, difference: u32) -> Record {
        Record { edition: self.edition.to_be_headed(), difference, ..self }
    }

    pub fn with_positions(mut self, positions: &[u16]) -> Record {
        for (event, &position) in self.events.iter_mut().zip(positions) {
            event.position = position;
        }
        self
    }

    pub fn to_bytes(&self) -> Vec<u8> {
        let mut bytes = vec![0; BLOCK_BYTES * self.edition.blocks_for(self.events.len())];
        bytes[0..4].copy_from_slice(self.edition.letters);
        bytes[DIFFERENCE_AT].copy_from_slice(&self.difference.to_le_bytes());
        bytes[OPENINGS_AT].copy_from_slice(&self.openings.to_bytes());
        bytes[4..6].copy_from_slice(&(self.events.len() as u16).to_le_bytes());
        bytes[6] = self.sites;
        for (number, event) in self.events.iter().enumerate() {
            slot_mut(&mut bytes, number).copy_from_slice(&event.to_slot(self.edition));
        }
        seal(&mut bytes);
        bytes
    }

    /// Reads a record that passes questions 3 to 7. Where `GCR1` has neither difference nor openings, it has zeros.
    pub fn from_bytes(bytes: &[u8]) -> Record {
        let events = (0..event_count(bytes)).map(|number| Event::from_slot(slot(bytes, number)));
        Record {
            edition: Edition::of(bytes).expect("question 5"),
            difference: u32_at(bytes, DIFFERENCE_AT.start),
            openings: Openings::from_bytes(&bytes[OPENINGS_AT]).expect("question 5"),
            sites: bytes[6],
            events: events.collect(),
        }
    }
}

pub fn u16_at(bytes: &[u8], at: usize) -> u16 {
    u16::from_le_bytes([bytes[at], bytes[at + 1]])
}

pub fn u32_at(bytes: &[u8], at: usize) -> u32 {
    u32::from_le_bytes(bytes[at..at + 4].try_into().expect("four bytes"))
}

pub fn u64_at(bytes: &[u8], at: usize) -> u64 {
    u64::from_le_bytes(bytes[at..at + 8].try_into().expect("eight bytes"))
}

pub fn event_count(bytes: &[u8]) -> usize {
    u16_at(bytes, 4) as usize
}

pub fn slot(bytes: &[u8], number: usize) -> &[u8] {
    let edition = Edition::of_or_older(bytes);
    &bytes[edition.slot_start(number)..][..edition.slot_bytes]
}

pub fn slot_mut(bytes: &mut [u8], number: usize) -> &mut [u8] {
    let edition = Edition::of_or_older(bytes);
    &mut bytes[edition.slot_start(number)..][..edition.slot_bytes]
}

/// No slot holds events past its end.
pub fn visible_of(slot: &[u8]) -> EventSet {
    let set = &slot[SET_AT..];
    std::array::from_fn(|event| set.get(event / 8).is_some_and(|byte| byte >> (event % 8) & 1 == 1))
}

/// A and B of a block, word by word as the paper tells them.
pub fn check(number: usize, block: &[u8]) -> (u32, u32) {
    let (mut a, mut b) = (number as u32 + 1, 0);
    for word in 0..CHECKED_BYTES / 2 {
        a = (a + u16_at(block, 2 * word) as u32) % 65_521;
        b = (b + a) % 65_521;
    }
    (a, b)
}

pub fn stored_check(block: &[u8]) -> (u32, u32) {
    (u16_at(block, 508) as u32, u16_at(block, 510) as u32)
}

/// Writes every whole block's check; a part of a block at the end stays.
pub fn seal(bytes: &mut [u8]) {
    for (number, block) in bytes.chunks_exact_mut(BLOCK_BYTES).enumerate() {
        let (a, b) = check(number, block);
        block[508..510].copy_from_slice(&(a as u16).to_le_bytes());
        block[510..512].copy_from_slice(&(b as u16).to_le_bytes());
    }
}
