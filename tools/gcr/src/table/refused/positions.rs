//! Question 8: a position that is not there, or is another event's.

use super::super::column::Column;
use super::{no_such, Refused};
use crate::text::Bad;

impl Refused<'_, '_> {
    pub fn no_position(&self) -> Option<Bad> {
        let (position, count) = (self.event.position, self.table.record.count());
        let cell = self.row.cell(Column::Position);
        if usize::from(position) >= count {
            return Some(cell.bad(no_such("position", position, count)));
        }
        let mut lower = self.table.record.events().take(self.number.into());
        let (other, _) = lower.find(|(_, other)| other.position == position)?;
        let line = self.table.row(other.into())?.row.end.line;
        Some(cell.bad(format!("the position {position} is event {other}'s already, in line {line}")))
    }
}
