//! What a record says, and its bytes.

use crate::blocks::seal;
use crate::slots::Slots;
use crate::{count, difference, read, Edition, Event, Openings, Refusal, WORK_WORDS};
use alloc::vec;
use alloc::vec::Vec;
use core::ops::Range;

const COUNT: Range<usize> = 4..6;
const SITES: usize = 6;
const DIFFERENCE: Range<usize> = 8..12;
/// In edition `GCR1`, which has none, these bytes are zero.
const OPENINGS: Range<usize> = 12..144;

/// The most events that a record has: 384, of the latest edition. [`Edition::events_most`] tells them of each.
pub const EVENTS_MOST: usize = Edition::Gcr3.events_most();

/// All that a record says: it is read from the bytes of a record that passes its questions, or filled in by a host.
///
/// ```
/// use gcr::{judge_model, Edition, Event, Kind, Model, Record, Verdict};
///
/// let mut write = Event::blank();
/// (write.kind, write.object, write.value, write.end) = (Kind::Write, 5, Some(100), Some(1));
/// let mut read = Event::blank();
/// (read.site, read.object, read.value) = (1, 5, Some(100));
/// (read.start, read.end, read.position) = (2, Some(3), 1);
/// read.visible = [0].into_iter().collect();
///
/// let mut record = Record::new(Edition::Gcr2, 2);
/// record.push(write);
/// record.push(read);
/// let bytes = record.encode()?;
/// assert_eq!(judge_model(Model::Causal, &bytes)?, Verdict::Met);
/// assert_eq!(Record::read(&bytes)?, record);
/// # Ok::<(), gcr::Refusal>(())
/// ```
#[derive(Clone, Debug, PartialEq, Eq, Hash)]
#[non_exhaustive]
pub struct Record {
    /// Which edition its bytes are of.
    pub edition: Edition,
    /// How many sites there are, 1 to 8.
    pub sites: u8,
    /// The milliseconds by which the clocks of two sites may differ; 0 in edition `GCR1`.
    pub difference: u32,
    /// What objects start the day with; none in edition `GCR1`.
    pub openings: Openings,
    /// Event k stands at k.
    events: Vec<Event>,
}

impl Record {
    /// One without events and openings, whose clocks do not differ.
    pub const fn new(edition: Edition, sites: u8) -> Record {
        Record { edition, sites, difference: 0, openings: Openings::none(), events: Vec::new() }
    }

    /// What the bytes say.
    ///
    /// # Errors
    ///
    /// By 3 to 10, as [`read`](crate::read()) refuses them.
    pub fn read(bytes: &[u8]) -> Result<Record, Refusal> {
        read(bytes, &mut [0; WORK_WORDS])?;
        let refused = Refusal { number: 5, place: 0 }; // by no record that passed
        let edition = Edition::of(bytes).ok_or(refused)?;
        let openings = Openings::from_bytes(&bytes[OPENINGS]).ok_or(refused)?;
        let slots = Slots::of(edition);
        let events = (0..count(bytes).into()).map(|number| Event::from_slot(&bytes[slots.at(number)])).collect();
        Ok(Record { edition, sites: bytes[SITES], difference: difference(bytes), openings, events })
    }

    /// With one event more, whose number is how many there were.
    pub fn push(&mut self, event: Event) {
        self.events.push(event);
    }

    /// How many events there are.
    pub fn count(&self) -> usize {
        self.events.len()
    }

    /// The event of this number, if there is one.
    pub fn event(&self, number: u16) -> Option<&Event> {
        self.events.get(usize::from(number))
    }

    /// The events in order, each with its number; of more than 65,536, which no record has, numbers begin anew.
    ///
    /// ```
    /// let record = gcr::Record::read(include_bytes!("../../../records/stale-read.gcr"))?;
    /// let seeing = record.events().filter(|(_, event)| event.visible.contains(0));
    /// assert_eq!(seeing.map(|(number, _)| number).collect::<Vec<_>>(), [1]); // event 2 has lost sight of it
    /// # Ok::<(), gcr::Refusal>(())
    /// ```
    pub fn events(&self) -> impl ExactSizeIterator<Item = (u16, &Event)> + DoubleEndedIterator {
        self.events.iter().enumerate().map(|(number, event)| (number as u16, event))
    }

    /// Its bytes, which pass the questions and say the same.
    ///
    /// # Errors
    ///
    /// By 3 to 10, where a record cannot say this: with 257 events in edition `GCR2`, or with openings in `GCR1`, by 5,
    /// with a site that is not there by 7 and so on. What is answered is what [`read`](crate::read()) finds of the
    /// bytes.
    ///
    /// ```
    /// use gcr::{Edition, Event, Record};
    ///
    /// let mut record = Record::new(Edition::Gcr1, 1);
    /// record.push(Event::blank());
    /// record.push(Event::blank());
    /// assert_eq!(record.encode().unwrap_err().number, 8); // both are first in arbitration
    /// ```
    pub fn encode(&self) -> Result<Vec<u8>, Refusal> {
        let slots = Slots::of(self.edition);
        let mut bytes = vec![0; slots.record_bytes(self.events.len())];
        bytes[..COUNT.start].copy_from_slice(self.edition.letters().as_bytes());
        // more than fit into 16 bits are more than fit into a record, which question 3 asks first
        bytes[COUNT].copy_from_slice(&(self.events.len() as u16).to_le_bytes());
        bytes[SITES] = self.sites;
        bytes[DIFFERENCE].copy_from_slice(&self.difference.to_le_bytes());
        bytes[OPENINGS].copy_from_slice(self.openings.as_bytes());
        for (number, event) in self.events.iter().enumerate() {
            event.store(number, &mut bytes[slots.at(number)]);
        }
        seal(&mut bytes);
        read(&bytes, &mut [0; WORK_WORDS])?;
        Ok(bytes)
    }
}
