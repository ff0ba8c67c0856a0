//! The calls of a script.

use alloc::vec::Vec;

/// Byte 0 of a call.
pub(crate) mod kind {
    pub const PUT: u8 = 1;
    pub const GET: u8 = 2;
    pub const DELIVER: u8 = 3;
    pub const CLOSE: u8 = 4;
}

/// One call of a rehearsal's script.
#[derive(Clone, Copy, Debug, PartialEq, Eq, Hash)]
#[non_exhaustive]
pub enum Call {
    /// Puts a value into an object.
    Put {
        /// Where.
        site: u8,
        /// Into what, 0 to 31.
        object: u8,
        /// The value.
        value: u32,
    },
    /// Gets an object's value.
    Get {
        /// Where.
        site: u8,
        /// Of what, 0 to 31.
        object: u8,
    },
    /// Delivers a put to a site.
    Deliver {
        /// To where.
        site: u8,
        /// The event that the put became.
        event: u16,
    },
    /// Close of trading: delivers to each site every put that it lacks. Nothing refuses it.
    Close,
}

impl Call {
    /// The call as a script has it.
    ///
    /// ```
    /// assert_eq!(gcr::Call::Put { site: 1, object: 5, value: 200 }.bytes(), [1, 1, 5, 0, 200, 0, 0, 0]);
    /// assert_eq!(gcr::Call::Close.bytes(), [4, 0, 0, 0, 0, 0, 0, 0]);
    /// ```
    pub fn bytes(&self) -> [u8; 8] {
        let (kind, site, object, rest) = match *self {
            Call::Put { site, object, value } => (kind::PUT, site, object, value),
            Call::Get { site, object } => (kind::GET, site, object, 0),
            Call::Deliver { site, event } => (kind::DELIVER, site, 0, u32::from(event)),
            Call::Close => (kind::CLOSE, 0, 0, 0),
        };
        let [a, b, c, d] = rest.to_le_bytes();
        [kind, site, object, 0, a, b, c, d]
    }
}

/// Calls as a script.
pub fn script(calls: &[Call]) -> Vec<u8> {
    calls.iter().flat_map(Call::bytes).collect()
}
