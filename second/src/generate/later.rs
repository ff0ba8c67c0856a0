//! A record's events behind others that change nothing.

use crate::limits::MOST_EVENTS;
use crate::record::{Event, Record};

/// The same record with so many events before its own. They start at 0, where nothing has returned, and never return; they
/// see nothing, are seen by none and come first in arbitration: each predicate has the same answer, with later numbers in
/// its pair.
pub fn numbered_later(record: &Record, by: usize) -> Record {
    let idle = (0..by).map(|_| Event::read(0, 255, None).pending_from(0));
    let own = record.events.iter().map(|event| moved(event, by));
    let events: Vec<Event> = idle.chain(own).collect();
    let positions: Vec<u16> =
        (0..by as u16).chain(record.events.iter().map(|event| event.position + by as u16)).collect();
    Record { events, ..*record }.with_positions(&positions)
}

fn moved(event: &Event, by: usize) -> Event {
    let mut moved = Event { visible: [false; MOST_EVENTS], ..event.clone() };
    moved.visible[by..].copy_from_slice(&event.visible[..MOST_EVENTS - by]);
    moved
}
