//! What a script says: the sites, the openings and the calls.

use crate::openings;
use gcr::{Openings, OPENINGS_BYTES};

/// The bytes of a call.
pub const CALL: usize = 8;

/// As the proved rehearsal takes it. Whether it is one, the rehearsal says.
#[derive(Clone, Debug, PartialEq, Eq)]
pub struct Script {
    pub sites: u8,
    pub openings: [u8; OPENINGS_BYTES],
    pub calls: Vec<u8>,
}

impl Script {
    /// The objects that have an opening, each with it; of openings that are refused there are none to tell.
    pub fn opened(&self) -> Vec<(u8, u32)> {
        openings::all(&Openings::from_bytes(&self.openings).unwrap_or_default()).collect()
    }
}
