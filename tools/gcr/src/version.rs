//! Which version this is.

use crate::commands::Command;
use crate::ending::{Ending, Failure};
use crate::options::Operands;
use crate::output;

pub const COMMAND: Command = Command {
    name: "version",
    about: "tells which version this is",
    does: "Tells which version this is, of the command and of the proved library in it.",
    operands: Operands::NONE,
    options: &[],
    alternatives: &[],
    notes: "",
    example: "gcr version",
    run: |_| told(),
};

pub const VERSION: &str = env!("CARGO_PKG_VERSION");

pub fn told() -> Result<Ending, Failure> {
    output::written(format!("gcr {VERSION}\n").as_bytes()).map(|()| Ending::Well)
}
