//! How the command ends.

use crate::output;
use std::fmt::Display;
use std::io::{self, ErrorKind};
use std::process::ExitCode;

/// The exit status, the highest that applies.
#[derive(Clone, Copy, Debug, PartialEq, Eq, PartialOrd, Ord)]
pub enum Ending {
    Well = 0,
    Broken = 1,
    Refused = 2,
    Failed = 3,
    Unclear = 4,
}

impl Ending {
    pub const ALL: [Ending; 5] = [Ending::Well, Ending::Broken, Ending::Refused, Ending::Failed, Ending::Unclear];

    /// As people are told of it, by help, manual and pages.
    pub fn meaning(self) -> &'static str {
        match self {
            Ending::Well => "all met, or what was asked for is done",
            Ending::Broken => "something is broken",
            Ending::Refused => {
                "something was refused: a record, a script or one of its calls, or text that says neither"
            }
            Ending::Failed => {
                "a file could not be read, output not be written, or records are not as --expect or --strict asks"
            }
            Ending::Unclear => {
                "the command line was not understood or cannot be followed, or would replace a file of another kind; \
                 nothing was done"
            }
        }
    }
}

impl From<Ending> for ExitCode {
    fn from(ending: Ending) -> ExitCode {
        ExitCode::from(ending as u8)
    }
}

/// Why the command ends before it is done.
#[derive(Clone, Debug, PartialEq, Eq)]
pub struct Failure {
    pub ending: Ending,
    /// None where whoever would read it has gone.
    pub message: Option<String>,
}

impl Failure {
    pub fn unclear(message: impl Into<String>) -> Failure {
        Failure { ending: Ending::Unclear, message: Some(message.into()) }
    }

    pub fn refused(message: impl Into<String>) -> Failure {
        Failure { ending: Ending::Refused, message: Some(message.into()) }
    }

    pub fn failed(message: impl Into<String>) -> Failure {
        Failure { ending: Ending::Failed, message: Some(message.into()) }
    }

    /// What was written to this could not be written. Who has closed a pipe wants no more of it, and no word of that.
    pub fn unwritten(to: &str, error: io::Error) -> Failure {
        match error.kind() {
            ErrorKind::BrokenPipe => Failure { ending: Ending::Failed, message: None },
            _ => Failure::failed(format!("cannot write {to}: {error}")),
        }
    }

    /// A record, a script or text of this name, and why it is refused.
    pub fn of_refusal(name: &str, why: impl Display) -> Failure {
        Failure::refused(format!("{name}: {why}"))
    }

    pub fn told(self) -> ExitCode {
        self.message.iter().for_each(|message| output::remarked(message));
        self.ending.into()
    }
}
