//! An event of a record, and the words for it.

use gcr::{Kind, VisibleSet};

#[derive(Clone, Debug, PartialEq, Eq)]
pub struct Event {
    pub is_write: bool,
    pub site: usize,
    pub object: u8,
    pub value: Option<u32>,
    /// The place in arbitration.
    pub position: u16,
    pub start: u64,
    /// None while pending.
    pub end: Option<u64>,
    pub visible: VisibleSet,
    /// A read that sees no write on its object and holds the object's opening.
    pub holds_opening: bool,
}

/// Whether it holds an opening stands elsewhere.
impl From<&gcr::Event> for Event {
    fn from(event: &gcr::Event) -> Event {
        Event {
            is_write: event.kind == Kind::Write,
            site: event.site.into(),
            object: event.object,
            value: event.value,
            position: event.position,
            start: event.start,
            end: event.end,
            visible: event.visible,
            holds_opening: false,
        }
    }
}

impl Event {
    pub fn is_pending(&self) -> bool {
        self.end.is_none()
    }

    /// By one clock, so of two events of one site.
    pub fn returned_before(&self, later: &Event) -> bool {
        self.end.is_some_and(|end| end < later.start)
    }

    /// Short: `W 5=100`, `R 5→200`, `R 5→300 (opening)`, `R 5→none`, and `R 5→?` while pending.
    pub fn label(&self) -> String {
        let object = self.object;
        match (self.is_write, self.value) {
            (true, value) => format!("W {object}={}", value.unwrap_or(0)),
            (false, Some(value)) if self.holds_opening => format!("R {object}→{value} (opening)"),
            (false, Some(value)) => format!("R {object}→{value}"),
            (false, None) if self.is_pending() => format!("R {object}→?"),
            (false, None) => format!("R {object}→none"),
        }
    }

    /// What the label says.
    pub fn label_in_words(&self) -> String {
        let object = self.object;
        match (self.is_write, self.value) {
            (true, value) => format!("a write of {} to object {object}", value.unwrap_or(0)),
            (false, Some(value)) => format!("a read of object {object} that holds {value}"),
            (false, None) if self.is_pending() => format!("a read of object {object} that is pending"),
            (false, None) => format!("a read of object {object} that holds no value"),
        }
    }

    /// All that the record says of it.
    pub fn details(&self, number: usize) -> String {
        let until = self.end.map_or("pending".to_string(), |end| format!("returned {end}"));
        let (label, site, start, position) = (self.label(), self.site, self.start, self.position);
        format!("event {number}: {label}, site {site}, start {start}, {until}, arbitration {position}")
    }
}

#[cfg(test)]
mod tests {
    use super::*;

    fn event(is_write: bool, value: Option<u32>, end: Option<u64>) -> Event {
        Event { is_write, object: 5, value, start: 2, end, ..Event::from(&gcr::Event::blank()) }
    }

    #[test]
    fn labels_tell_kind_object_and_value() {
        assert_eq!(event(true, Some(100), Some(3)).label(), "W 5=100");
        assert_eq!(event(false, Some(200), Some(3)).label(), "R 5→200");
        assert_eq!(event(false, None, Some(3)).label(), "R 5→none");
        assert_eq!(event(false, None, None).label(), "R 5→?");
    }

    #[test]
    fn an_opening_is_told_from_a_value_that_was_written() {
        let opened = Event { holds_opening: true, ..event(false, Some(300), Some(3)) };
        assert_eq!(opened.label(), "R 5→300 (opening)");
    }

    #[test]
    fn a_return_at_a_start_is_not_before_it() {
        let later = event(true, Some(1), None);
        assert!(event(true, Some(1), Some(1)).returned_before(&later));
        assert!(!event(true, Some(1), Some(2)).returned_before(&later));
        assert!(!later.returned_before(&later));
    }
}
