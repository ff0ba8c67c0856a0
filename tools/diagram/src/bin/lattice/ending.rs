//! How a program ends that has a text to write, or none.

use std::io::{self, Write};
use std::process::ExitCode;

pub fn failed(why: &str) -> ExitCode {
    eprintln!("{why}");
    ExitCode::from(1)
}

/// `product` is what the text is, for whoever cannot have it.
pub fn written(product: &str, text: &str) -> ExitCode {
    match io::stdout().write_all(text.as_bytes()) {
        Ok(()) => ExitCode::SUCCESS,
        Err(error) => failed(&format!("cannot write {product}: {error}")),
    }
}
