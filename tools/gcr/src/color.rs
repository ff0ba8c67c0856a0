//! Colors, for who reads on a terminal.

use crate::ending::Ending;
use crate::options::{Kind, Opt};
use crate::words::Words;
use std::env;
use std::ffi::OsStr;
use std::io::{self, IsTerminal};

/// Whether words are colored by how well they are.
#[derive(Clone, Copy, Debug, PartialEq, Eq)]
pub struct Colors {
    are_on: bool,
}

/// When colors are on.
pub const OPTION: Opt = Opt::with(
    "--color",
    "WHEN",
    Kind::OneOf(&["auto", "always", "never"]),
    "colors; auto is on a terminal, unless NO_COLOR is set",
);

impl Colors {
    /// By `--color`. Where that leaves it open they are for terminals, and for nobody who has set NO_COLOR to anything.
    pub fn asked(words: &Words) -> Colors {
        let are_on = match words.one(OPTION.name).and_then(OsStr::to_str) {
            Some("always") => true,
            Some("never") => false,
            _ => io::stdout().is_terminal() && env::var_os("NO_COLOR").is_none_or(|set| set.is_empty()),
        };
        Colors { are_on }
    }

    /// Green for what is well, red for what is broken, and others for what was not judged.
    pub fn of(self, ending: Ending, text: &str) -> String {
        let color = match ending {
            Ending::Well => 32,
            Ending::Broken => 31,
            Ending::Refused => 33,
            Ending::Failed | Ending::Unclear => 35,
        };
        match self.are_on {
            true => format!("\x1b[{color}m{text}\x1b[m"),
            false => text.to_string(),
        }
    }
}
