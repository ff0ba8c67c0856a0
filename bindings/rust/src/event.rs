//! An event of a record, and the slot that holds it.

use crate::VisibleSet;
use core::ops::Range;

/// Where a slot has what.
mod at {
    use core::ops::{Range, RangeFrom};

    pub const KIND: usize = 0;
    pub const SITE: usize = 1;
    pub const OBJECT: usize = 2;
    pub const STATE: usize = 3;
    pub const VALUE: Range<usize> = 4..8;
    pub const HAS_VALUE: usize = 8;
    pub const POSITION: Range<usize> = 10..12;
    pub const START: Range<usize> = 16..24;
    pub const END: Range<usize> = 24..32;
    /// To the end of the slot, which goes by the edition.
    pub const VISIBLE: RangeFrom<usize> = 32..;
}

/// What an event does.
#[derive(Clone, Copy, Debug, PartialEq, Eq, Hash)]
pub enum Kind {
    /// It reads an object's value.
    Read,
    /// It writes an object's value.
    Write,
}

/// One read or write of one object at one site. Its number is its place among [`Record::events`](crate::Record::events),
/// from 0.
///
/// It may say what no record can: [`Record::encode`](crate::Record::encode) refuses that.
#[derive(Clone, Copy, Debug, PartialEq, Eq, Hash)]
#[non_exhaustive]
pub struct Event {
    /// What it does.
    pub kind: Kind,
    /// Where.
    pub site: u8,
    /// On what.
    pub object: u8,
    /// What it wrote or holds. A write has a value; a pending read has none, and a returned one has one or none.
    pub value: Option<u32>,
    /// When it started, in milliseconds by its site's clock.
    pub start: u64,
    /// When it returned; none while it is pending.
    pub end: Option<u64>,
    /// Its place in arbitration, from 0.
    pub position: u16,
    /// What it sees.
    pub visible: VisibleSet,
}

impl Event {
    /// A pending read of object 0 at site 0 that starts at 0, is first in arbitration and sees nothing: to be filled in.
    ///
    /// ```
    /// use gcr::{Event, Kind};
    ///
    /// let mut write = Event::blank();
    /// (write.kind, write.value, write.end) = (Kind::Write, Some(7), Some(1));
    /// assert!(!write.is_pending());
    /// ```
    pub const fn blank() -> Event {
        let visible = VisibleSet::none();
        Event { kind: Kind::Read, site: 0, object: 0, value: None, start: 0, end: None, position: 0, visible }
    }

    /// Whether it has not returned.
    pub fn is_pending(&self) -> bool {
        self.end.is_none()
    }

    /// Reads a slot of a record that passed its questions.
    pub(crate) fn from_slot(slot: &[u8]) -> Event {
        let number = |at: Range<usize>| slot[at].iter().rev().fold(0, |sum, &byte| sum << 8 | u64::from(byte));
        Event {
            kind: if slot[at::KIND] == 1 { Kind::Write } else { Kind::Read },
            site: slot[at::SITE],
            object: slot[at::OBJECT],
            value: (slot[at::HAS_VALUE] == 1).then(|| number(at::VALUE) as u32),
            start: number(at::START),
            end: (slot[at::STATE] == 0).then(|| number(at::END)),
            position: number(at::POSITION) as u16,
            visible: VisibleSet::from_bytes(&slot[at::VISIBLE]),
        }
    }

    /// Over a slot that is zero, as the event of this number. Where it sees an event for which slots of this size have no
    /// bit, it is stored as one that sees itself too: question 9 refuses both, so that it is the reader that answers.
    pub(crate) fn store(&self, number: usize, slot: &mut [u8]) {
        slot[at::KIND] = u8::from(self.kind == Kind::Write);
        slot[at::SITE] = self.site;
        slot[at::OBJECT] = self.object;
        slot[at::STATE] = u8::from(self.is_pending());
        slot[at::VALUE].copy_from_slice(&self.value.unwrap_or(0).to_le_bytes());
        slot[at::HAS_VALUE] = u8::from(self.value.is_some());
        slot[at::POSITION].copy_from_slice(&self.position.to_le_bytes());
        slot[at::START].copy_from_slice(&self.start.to_le_bytes());
        slot[at::END].copy_from_slice(&self.end.unwrap_or(0).to_le_bytes());
        let room = &mut slot[at::VISIBLE];
        let (stored, beyond) = self.visible.as_bytes().split_at(room.len());
        room.copy_from_slice(stored);
        if let (true, Some(byte)) = (beyond.iter().any(|&byte| byte != 0), room.get_mut(number / 8)) {
            *byte |= 1 << (number % 8);
        }
    }
}
