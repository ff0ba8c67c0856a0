//! The rehearsal of the store.

use crate::{ffi, Openings, Refusal};

/// The bytes of the longest script.
pub const SCRIPT_MOST: usize = 32_768;

/// What a rehearsal that was not refused has come to.
#[derive(Clone, Copy, Debug, PartialEq, Eq, Hash)]
#[non_exhaustive]
pub struct Rehearsed {
    /// The bytes of the record, from the start of its buffer.
    pub length: usize,
    /// The copies still on the lines when the script has ended: exactly the pairs of a put and a site that lacks it, so
    /// 0 with one site. See [`rehearse`] for what they add up to with the copies that came.
    pub outstanding: u64,
}

/// Runs a script over a store of so many sites, at each of which objects start with their openings. The record of it,
/// of edition `GCR3` and with a [`difference`](crate::difference()) of 0, goes to `record`, which has
/// [`RECORD_MOST`](crate::RECORD_MOST) bytes or more, and an answer for each call to `answers`, which is at least as
/// long as the script; bytes beyond what is written stay. A call that is refused changes only its own answer.
///
/// # Errors
///
/// By 20 to 23: other sites than 1 to 8, a script that is no row of at most 4,096 calls, a record buffer or an answer
/// buffer that is too short. Both buffers are then as they were.
///
/// A get finds the object's opening where its site knows no put of the object; every put replaces it. Here the put of
/// site 0 has not come to site 1:
///
/// ```
/// use gcr::{answers, rehearse, script, Answer, Call, Openings, RECORD_MOST};
///
/// let openings = Openings::none().with(5, 300).unwrap();
/// let get = |site, object| Call::Get { site, object };
/// let script = script(&[Call::Put { site: 0, object: 5, value: 350 }, get(0, 5), get(1, 5), get(1, 6)]);
/// let (mut record, mut buffer) = ([0; RECORD_MOST], vec![0; script.len()]);
/// rehearse(2, &openings, &script, &mut record, &mut buffer)?;
///
/// let answers: Vec<_> = answers(&script, &buffer).collect();
/// assert_eq!(answers[1], Answer::Get { event: 1, value: Some(350) });
/// assert_eq!(answers[2], Answer::Get { event: 2, value: Some(300) });
/// assert_eq!(answers[3], Answer::Get { event: 3, value: None });
/// assert_eq!(Openings::from_bytes(&record[12..144]), Some(openings));
/// # Ok::<(), gcr::Refusal>(())
/// ```
///
/// Whatever its calls, done puts × (sites − 1) = done deliveries + copies delivered by closes + outstanding. Here the
/// first put comes to two sites, to one by a delivery and to one by a close, and the second put to none:
///
/// ```
/// use gcr::{answers, rehearse, script, Answer, Call, Openings, RECORD_MOST};
///
/// let put = |site| Call::Put { site, object: 5, value: 100 };
/// let script = script(&[put(0), Call::Deliver { site: 1, event: 0 }, Call::Close, put(1)]);
/// let mut buffer = vec![0; script.len()];
/// let done = rehearse(3, &Openings::none(), &script, &mut [0; RECORD_MOST], &mut buffer)?;
///
/// let (mut puts, mut came) = (0, 0);
/// for answer in answers(&script, &buffer) {
///     match answer {
///         Answer::Put { .. } => puts += 1,
///         Answer::Delivered => came += 1,
///         Answer::Closed { copies } => came += u64::from(copies),
///         _ => (),
///     }
/// }
/// assert_eq!((puts, came, done.outstanding), (2, 2, 2));
/// assert_eq!(puts * (3 - 1), came + done.outstanding);
/// # Ok::<(), gcr::Refusal>(())
/// ```
///
/// An empty script, and what is refused:
///
/// ```
/// use gcr::{rehearse, Openings, RECORD_MOST};
///
/// let mut record = [7; RECORD_MOST];
/// let empty = rehearse(1, &Openings::none(), &[], &mut record, &mut [])?;
/// assert_eq!((empty.length, empty.outstanding), (512, 0));
/// assert_eq!(&record[..4], b"GCR3");
/// assert_eq!(record[512], 7);
///
/// let refusal = rehearse(9, &Openings::none(), &[], &mut record, &mut []).unwrap_err();
/// assert_eq!(refusal.sentence(), "The number of sites is not 1 to 8.");
/// # Ok::<(), gcr::Refusal>(())
/// ```
pub fn rehearse(
    sites: u32,
    openings: &Openings,
    script: &[u8],
    record: &mut [u8],
    answers: &mut [u8],
) -> Result<Rehearsed, Refusal> {
    rehearse_raw(sites, openings.as_bytes(), script, record, answers)
}

/// The same with openings as bytes that may be anything, such as a file's.
///
/// # Errors
///
/// By 20 to 23 as [`rehearse`] has them, and then by 40, where the openings are no [`Openings`].
///
/// ```
/// use gcr::{rehearse_raw, RECORD_MOST};
///
/// let mut record = [0; RECORD_MOST];
/// let refusal = rehearse_raw(1, &[0; 131], &[], &mut record, &mut []).unwrap_err();
/// assert_eq!(refusal.number, 40);
/// let refusal = rehearse_raw(9, &[0; 131], &[], &mut record, &mut []).unwrap_err();
/// assert_eq!(refusal.number, 20);
/// ```
pub fn rehearse_raw(
    sites: u32,
    openings: &[u8],
    script: &[u8],
    record: &mut [u8],
    answers: &mut [u8],
) -> Result<Rehearsed, Refusal> {
    ffi::rehearse(sites, openings, script, record, answers).done()
}
