//! In which form what was found is written.

use super::found::Found;
use super::{csv, json, lines};
use crate::color::Colors;
use crate::records::Layout;
use crate::words::Words;

#[derive(Clone, Copy, Debug, PartialEq, Eq)]
pub enum Form {
    Lines(Colors),
    Json,
    Csv,
}

impl Form {
    pub fn asked(words: &Words) -> Form {
        match (words.has("--json"), words.has("--csv")) {
            (true, _) => Form::Json,
            (_, true) => Form::Csv,
            _ => Form::Lines(Colors::asked(words)),
        }
    }

    pub fn layout(self) -> Layout {
        match self {
            Form::Lines(_) => Layout::Lines,
            Form::Json | Form::Csv => Layout::Data,
        }
    }

    /// Before all records.
    pub fn head(self) -> &'static str {
        match self {
            Form::Csv => csv::HEAD,
            Form::Lines(_) | Form::Json => "",
        }
    }

    /// Whether the events of breaks are written.
    pub fn has_events(self) -> bool {
        self == Form::Json
    }

    pub fn of(self, found: &Found) -> String {
        match self {
            Form::Lines(colors) => lines::line(found, colors),
            Form::Json => json::line(found),
            Form::Csv => csv::rows(found),
        }
    }
}
