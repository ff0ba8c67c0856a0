//! Text from a file or from standard input.

use super::{letters, with_line_feeds};
use crate::ending::Failure;
use crate::source::Source;

/// More than any text needs: a record's has less than 200,000 bytes, and that of 4,096 calls with their answers less
/// than 500,000.
const MOST: usize = 4_000_000;

/// All of it. What is no text is refused with its place, and with this hint.
pub fn read(source: &Source, hint: &str) -> Result<String, Failure> {
    let bytes = source.bytes(MOST + 1)?;
    if bytes.len() > MOST {
        return Err(Failure::of_refusal(&source.name(), "the text is longer than 4,000,000 bytes"));
    }
    match letters(&bytes) {
        Ok(text) => Ok(with_line_feeds(text)),
        Err(bad) => Err(Failure::of_refusal(&source.name(), format!("{bad}{hint}"))),
    }
}
