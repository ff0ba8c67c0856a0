//! Where events lie in a record: in slots, whose size goes by the edition.

use crate::blocks::BLOCK;
use crate::Edition;
use core::ops::Range;

/// The slots of an edition.
pub(crate) struct Slots {
    /// Of each.
    bytes: usize,
    /// So many fill a block.
    in_a_block: usize,
}

impl Slots {
    pub const fn of(edition: Edition) -> Slots {
        match edition {
            Edition::Gcr1 | Edition::Gcr2 => Slots { bytes: 64, in_a_block: 7 },
            Edition::Gcr3 => Slots { bytes: 80, in_a_block: 6 },
        }
    }

    /// The bytes of a record that has so many events.
    pub const fn record_bytes(&self, events: usize) -> usize {
        BLOCK * (1 + events.div_ceil(self.in_a_block))
    }

    /// Where an event's slot is.
    pub fn at(&self, event: usize) -> Range<usize> {
        let at = BLOCK * (1 + event / self.in_a_block) + self.bytes * (event % self.in_a_block);
        at..at + self.bytes
    }
}

#[cfg(test)]
mod tests {
    use super::*;

    #[test]
    fn slots_lie_as_their_edition_has_them() {
        for edition in [Edition::Gcr1, Edition::Gcr2] {
            let slots = Slots::of(edition);
            assert_eq!([0, 6, 7, 255].map(|event| slots.at(event)), [512..576, 896..960, 1024..1088, 19_136..19_200]);
            assert_eq!([0, 1, 7, 8, 256].map(|events| slots.record_bytes(events)), [512, 1024, 1024, 1536, 19_456]);
        }
        let slots = Slots::of(Edition::Gcr3);
        assert_eq!([0, 5, 6, 383].map(|event| slots.at(event)), [512..592, 912..992, 1024..1104, 33_168..33_248]);
        assert_eq!([0, 1, 6, 7, 384].map(|events| slots.record_bytes(events)), [512, 1024, 1024, 1536, 33_280]);
    }
}
