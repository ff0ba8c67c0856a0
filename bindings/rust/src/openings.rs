//! Openings: the figures that objects start the day with.

use core::fmt;

/// The bytes of [`Openings`].
pub const OPENINGS_BYTES: usize = 132;

/// The objects that may have an opening: 0 to 31.
const OBJECTS: usize = 32;

/// What each of objects 0 to 31 starts the day with: a figure, or none. A read that sees no write on its object
/// should hold the object's opening. An opening of 0 is one too; objects from 32 on have none.
///
/// As bytes they are lent to a rehearsal, and are bytes 12 to 143 of a record of edition `GCR2` or `GCR3`. No value
/// stands in them without its bit, so 40 never refuses them.
///
/// ```
/// use gcr::Openings;
///
/// let openings = Openings::none().with(5, 300).and_then(|openings| openings.with(31, 0)).unwrap();
/// assert_eq!((openings.get(5), openings.get(31), openings.get(7)), (Some(300), Some(0), None));
/// assert_eq!(openings.with(32, 1), None);
/// ```
#[derive(Clone, Copy, PartialEq, Eq, Hash)]
pub struct Openings {
    /// A bit for each object, then the values: zero where the bit is clear.
    bytes: [u8; OPENINGS_BYTES],
}

impl Openings {
    /// No object has one.
    pub const fn none() -> Openings {
        Openings { bytes: [0; OPENINGS_BYTES] }
    }

    /// The same with an opening of this object, in place of one that it has. None where the object is above 31.
    #[must_use]
    pub fn with(mut self, object: u8, value: u32) -> Option<Openings> {
        let object = usize::from(object);
        if object >= OBJECTS {
            return None;
        }
        self.bytes[object / 8] |= 1 << (object % 8);
        self.bytes[value_at(object)..][..4].copy_from_slice(&value.to_le_bytes());
        Some(self)
    }

    /// An object's opening, if it has one.
    pub fn get(&self, object: u8) -> Option<u32> {
        let object = usize::from(object);
        (object < OBJECTS && has(&self.bytes, object)).then(|| value(&self.bytes, object))
    }

    /// As a rehearsal takes them.
    pub fn as_bytes(&self) -> &[u8; OPENINGS_BYTES] {
        &self.bytes
    }

    /// Openings from their bytes. None where a rehearsal would refuse them by 40: they are not [`OPENINGS_BYTES`], or
    /// hold a value under a clear bit.
    ///
    /// Of a record that passed its questions, `record[12..144]` are its openings. In edition `GCR1` these bytes are
    /// zero: no object has one.
    ///
    /// ```
    /// use gcr::Openings;
    ///
    /// let mut bytes = [0; 132];
    /// bytes[4] = 7; // object 0's value, without its bit
    /// assert_eq!(Openings::from_bytes(&bytes), None);
    /// bytes[0] = 1;
    /// assert_eq!(Openings::from_bytes(&bytes), Openings::none().with(0, 7));
    /// assert_eq!(Openings::from_bytes(&bytes[1..]), None);
    /// ```
    pub fn from_bytes(bytes: &[u8]) -> Option<Openings> {
        let bytes = bytes.try_into().ok()?;
        let is_right = |object| has(&bytes, object) || value(&bytes, object) == 0;
        (0..OBJECTS).all(is_right).then_some(Openings { bytes })
    }
}

/// None.
impl Default for Openings {
    fn default() -> Openings {
        Openings::none()
    }
}

/// The objects that have one, each with it: `{5: 300, 31: 0}`.
impl fmt::Debug for Openings {
    fn fmt(&self, f: &mut fmt::Formatter<'_>) -> fmt::Result {
        let opening = |object| self.get(object).map(|value| (object, value));
        f.debug_map().entries((0..OBJECTS as u8).filter_map(opening)).finish()
    }
}

fn has(bytes: &[u8; OPENINGS_BYTES], object: usize) -> bool {
    bytes[object / 8] >> (object % 8) & 1 == 1
}

fn value(bytes: &[u8; OPENINGS_BYTES], object: usize) -> u32 {
    let at = value_at(object);
    u32::from_le_bytes([bytes[at], bytes[at + 1], bytes[at + 2], bytes[at + 3]])
}

fn value_at(object: usize) -> usize {
    4 + 4 * object
}
