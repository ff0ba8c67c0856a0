//! The answers of a script's calls.

use crate::call::kind;
use crate::Refusal;

/// The answer of one call, by the kind of the call.
#[derive(Clone, Copy, Debug, PartialEq, Eq, Hash)]
#[non_exhaustive]
pub enum Answer {
    /// The call is a put that was done.
    Put {
        /// The event that it became.
        event: u16,
    },
    /// The call is a get that was done.
    Get {
        /// The event that it became.
        event: u16,
        /// The value that it found, if it found one: that of a put, or the object's opening.
        value: Option<u32>,
    },
    /// The call is a delivery that was done.
    Delivered,
    /// The call is a close that was done.
    Closed {
        /// The copies that it delivered: 0 where no site lacked a put.
        copies: u32,
    },
    /// The call was refused. The place is 0: a call's refusal has none.
    Refused(Refusal),
}

impl Answer {
    /// Why the call was refused, if it was.
    pub fn refusal(&self) -> Option<Refusal> {
        match *self {
            Answer::Refused(refusal) => Some(refusal),
            _ => None,
        }
    }

    /// Bytes 1 and 4 to 7 mean one thing of a get and another of a close, so the call is looked at too. One of no kind
    /// is always refused.
    fn of(call: &[u8], bytes: &[u8]) -> Answer {
        let event = u16::from_le_bytes([bytes[2], bytes[3]]);
        let rest = u32::from_le_bytes([bytes[4], bytes[5], bytes[6], bytes[7]]);
        match (bytes[0], call[0]) {
            (0, kind::PUT) => Answer::Put { event },
            (0, kind::GET) => Answer::Get { event, value: (bytes[1] == 1).then_some(rest) },
            (0, kind::DELIVER) => Answer::Delivered,
            (0, kind::CLOSE) => Answer::Closed { copies: rest },
            (number, _) => Answer::Refused(Refusal { number: u32::from(number), place: 0 }),
        }
    }
}

/// The answer of each call of a script, in the order of the calls. Give it the script that was rehearsed and the answer
/// buffer that [`rehearse`](crate::rehearse) has written; what the buffer has beyond the script's length is not looked
/// at.
///
/// ```
/// use gcr::{answers, rehearse, script, Answer, Call, Openings, RECORD_MOST};
///
/// let script = script(&[
///     Call::Put { site: 0, object: 5, value: 100 },
///     Call::Close,
///     Call::Get { site: 1, object: 5 },
///     Call::Deliver { site: 1, event: 0 },
/// ]);
/// let mut buffer = [0; 32];
/// rehearse(2, &Openings::none(), &script, &mut [0; RECORD_MOST], &mut buffer)?;
/// let answers: Vec<_> = answers(&script, &buffer).collect();
/// assert_eq!(answers[0], Answer::Put { event: 0 });
/// assert_eq!(answers[1], Answer::Closed { copies: 1 });
/// assert_eq!(answers[2], Answer::Get { event: 1, value: Some(100) });
/// assert_eq!(answers[3].refusal().unwrap().sentence(), "The site already knows the delivered put.");
/// # Ok::<(), gcr::Refusal>(())
/// ```
pub fn answers<'a>(script: &'a [u8], buffer: &'a [u8]) -> impl Iterator<Item = Answer> + 'a {
    script.chunks_exact(8).zip(buffer.chunks_exact(8)).map(|(call, bytes)| Answer::of(call, bytes))
}
