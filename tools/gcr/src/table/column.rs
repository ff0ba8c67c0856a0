//! What an event has, each in a column of its own.

use super::names::{NONE, NOTHING};
use crate::text::Word;

#[derive(Clone, Copy, Debug, PartialEq, Eq)]
pub enum Column {
    Event,
    Site,
    Kind,
    Object,
    Value,
    State,
    Start,
    Return,
    Position,
    Sees,
}

impl Column {
    /// As they are written.
    pub const ALL: [Column; 10] = {
        use Column::*;
        [Event, Site, Kind, Object, Value, State, Start, Return, Position, Sees]
    };

    pub fn name(self) -> &'static str {
        match self {
            Column::Event => "event",
            Column::Site => "site",
            Column::Kind => "kind",
            Column::Object => "object",
            Column::Value => "value",
            Column::State => "state",
            Column::Start => "start",
            Column::Return => "return",
            Column::Position => "position",
            Column::Sees => "sees",
        }
    }

    pub fn names() -> Vec<&'static str> {
        Column::ALL.into_iter().map(Column::name).collect()
    }

    /// As it is written above its cells: in brackets where these are.
    pub fn heading(self) -> &'static str {
        match self {
            Column::Sees => "[sees]",
            _ => self.name(),
        }
    }

    pub fn named(word: Word) -> Option<Column> {
        Column::ALL.into_iter().find(|column| word.is(column.name()) || word.is(column.heading()))
    }

    /// Rows count, and a return says the state.
    pub fn may_be_left_out(self) -> bool {
        matches!(self, Column::Event | Column::State)
    }

    /// What is written where there is none, if that may be.
    pub fn nothing(self) -> Option<&'static str> {
        match self {
            Column::Value => Some(NONE),
            Column::Return | Column::Sees => Some(NOTHING),
            _ => None,
        }
    }
}
