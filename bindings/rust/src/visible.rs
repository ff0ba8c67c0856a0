//! What an event sees.

use crate::EVENTS_MOST;
use core::fmt;

/// A bit for each event of the longest record.
const BYTES: usize = EVENTS_MOST / 8;

/// The events that are visible to an event.
///
/// ```
/// use gcr::VisibleSet;
///
/// let seen: VisibleSet = [0, 7, 383].into_iter().collect();
/// assert!(seen.contains(7) && !seen.contains(8));
/// assert_eq!(seen.iter().collect::<Vec<_>>(), [0, 7, 383]);
/// assert_eq!(VisibleSet::none().with(384), None);
/// ```
#[derive(Clone, Copy, PartialEq, Eq, Hash)]
pub struct VisibleSet {
    /// Event b is bit b mod 8 of byte b div 8.
    bytes: [u8; BYTES],
}

impl VisibleSet {
    /// Nothing is seen.
    pub const fn none() -> VisibleSet {
        VisibleSet { bytes: [0; BYTES] }
    }

    /// The same and this event. None where no record has an event of this number.
    #[must_use]
    pub fn with(mut self, event: u16) -> Option<VisibleSet> {
        let byte = self.bytes.get_mut(usize::from(event / 8))?;
        *byte |= 1 << (event % 8);
        Some(self)
    }

    /// Whether this event is seen.
    pub fn contains(&self, event: u16) -> bool {
        let byte = self.bytes.get(usize::from(event / 8));
        byte.is_some_and(|byte| byte >> (event % 8) & 1 == 1)
    }

    /// Whether nothing is seen.
    pub fn is_empty(&self) -> bool {
        *self == VisibleSet::none()
    }

    /// The events that are seen, rising.
    pub fn iter(&self) -> impl Iterator<Item = u16> + '_ {
        (0..EVENTS_MOST as u16).filter(|&event| self.contains(event))
    }

    /// From a slot, which may have bits for fewer events.
    pub(crate) fn from_bytes(stored: &[u8]) -> VisibleSet {
        let mut bytes = [0; BYTES];
        bytes[..stored.len()].copy_from_slice(stored);
        VisibleSet { bytes }
    }

    pub(crate) fn as_bytes(&self) -> &[u8; BYTES] {
        &self.bytes
    }
}

/// Nothing is seen.
impl Default for VisibleSet {
    fn default() -> VisibleSet {
        VisibleSet::none()
    }
}

/// # Panics
///
/// Where no record has an event of such a number.
impl FromIterator<u16> for VisibleSet {
    fn from_iter<I: IntoIterator<Item = u16>>(events: I) -> VisibleSet {
        let one_more = |seen: VisibleSet, event| seen.with(event).expect("a record has such an event");
        events.into_iter().fold(VisibleSet::none(), one_more)
    }
}

/// The events that are seen: `{0, 7, 383}`.
impl fmt::Debug for VisibleSet {
    fn fmt(&self, f: &mut fmt::Formatter<'_>) -> fmt::Result {
        f.debug_set().entries(self.iter()).finish()
    }
}
