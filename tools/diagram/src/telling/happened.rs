//! What happened in an event.

use super::breach::value;
use crate::record::Event;

/// `site 0 wrote 100 to object 5, from 1 ms to 2 ms`. What has not returned is told as going on.
pub fn happened(event: &Event) -> String {
    let (site, object, held) = (event.site, event.object, value(event.value));
    let did = match (event.is_write, event.is_pending()) {
        (true, false) => format!("wrote {held} to object {object}"),
        (true, true) => format!("writes {held} to object {object}"),
        (false, false) => format!("read {held} from object {object}{}", opening(event)),
        (false, true) => format!("reads object {object}"),
    };
    format!("site {site} {did}, {}", when(event))
}

fn opening(event: &Event) -> &'static str {
    match event.holds_opening {
        true => " (its opening)",
        false => "",
    }
}

fn when(event: &Event) -> String {
    match event.end {
        Some(end) => format!("from {} ms to {end} ms", event.start),
        None => format!("pending since {} ms", event.start),
    }
}
