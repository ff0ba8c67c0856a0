//! Question 7: an event that no slot can hold.

use super::super::column::Column;
use super::{no_such, Refused};
use crate::text::Bad;
use gcr::Kind;

impl Refused<'_, '_> {
    pub fn no_slot(&self) -> Option<Bad> {
        let (event, sites) = (self.event, self.table.record.sites);
        let bad = |column, what: String| Some(self.row.cell(column).bad(what));
        if event.site >= sites {
            return bad(Column::Site, no_such("site", event.site.into(), sites.into()));
        }
        match (event.kind, event.value, event.end) {
            (Kind::Write, None, _) => bad(Column::Value, "a write has a value, and this one has none".to_string()),
            (Kind::Read, Some(value), None) => {
                bad(Column::Value, format!("a pending read has no value, and this one has {value}"))
            }
            (_, _, Some(end)) if end < event.start => {
                bad(Column::Return, format!("the return {end} is before the start {}", event.start))
            }
            _ => None,
        }
    }
}
