//! `lattice` as the second checker answers it; the record of a number as its file has it.

use second::{lines, samples};
use std::io::{self, Write};

fn main() -> io::Result<()> {
    let arguments: Vec<String> = std::env::args().skip(1).collect();
    let output = match &arguments[..] {
        [] => lines::lattice_of_files().into_bytes(),
        [k] => record(k),
        _ => Vec::new(),
    };
    io::stdout().write_all(&output)
}

/// Nothing where there is no such record.
fn record(k: &str) -> Vec<u8> {
    let name = format!("separating-{k}.gcr");
    samples::separating().find(|sample| sample.name == name).map_or_else(Vec::new, |sample| sample.bytes)
}
