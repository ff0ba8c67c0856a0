//! Opening positions: the figure with which an object starts the day, or none.

use crate::record::u32_at;

/// The objects that can have an opening, and those that the store has.
pub const OBJECTS: usize = 32;

/// A bit for each object, then a value of four bytes for each.
pub const OPENINGS_BYTES: usize = 132;
const BITS_BYTES: usize = 4;

#[derive(Clone, Copy, Debug, PartialEq, Eq, Default)]
pub struct Openings {
    figures: [Option<u32>; OBJECTS],
}

impl Openings {
    pub fn none() -> Openings {
        Openings::default()
    }

    pub fn from_figures(figures: [Option<u32>; OBJECTS]) -> Openings {
        Openings { figures }
    }

    /// With this figure for an object below 32.
    pub fn with(mut self, object: usize, figure: u32) -> Openings {
        self.figures[object] = Some(figure);
        self
    }

    pub fn without(mut self, object: usize) -> Openings {
        self.figures[object] = None;
        self
    }

    /// The figure of any object; those from 32 on have none.
    pub fn of(&self, object: usize) -> Option<u32> {
        self.figures.get(object).copied().flatten()
    }

    pub fn count(&self) -> usize {
        self.figures.iter().flatten().count()
    }

    /// Nothing where the bytes are not 132, or hold a value under a clear bit.
    pub fn from_bytes(bytes: &[u8]) -> Option<Openings> {
        if bytes.len() != OPENINGS_BYTES {
            return None;
        }
        let mut openings = Openings::none();
        for object in 0..OBJECTS {
            match (bit(bytes, object), value(bytes, object)) {
                (true, figure) => openings = openings.with(object, figure),
                (false, 0) => (),
                (false, _) => return None,
            }
        }
        Some(openings)
    }

    pub fn to_bytes(&self) -> [u8; OPENINGS_BYTES] {
        let mut bytes = [0; OPENINGS_BYTES];
        for object in 0..OBJECTS {
            if let Some(figure) = self.of(object) {
                bytes[object / 8] |= 1 << (object % 8);
                bytes[value_at(object)..][..4].copy_from_slice(&figure.to_le_bytes());
            }
        }
        bytes
    }
}

/// The byte at which an object's value begins.
pub fn value_at(object: usize) -> usize {
    BITS_BYTES + 4 * object
}

fn bit(bytes: &[u8], object: usize) -> bool {
    u32_at(bytes, 0) >> object & 1 == 1
}

fn value(bytes: &[u8], object: usize) -> u32 {
    u32_at(bytes, value_at(object))
}
