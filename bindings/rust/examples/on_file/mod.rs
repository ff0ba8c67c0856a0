//! What the example hosts share: a file is read, what it holds is told, and the exit status goes with that.

use std::ffi::OsStr;
use std::fs::File;
use std::io::{Read, Result, Write};
use std::process::ExitCode;

/// The file could not be read, or the line could not be written.
const LOST: u8 = 3;
/// More bytes than any input may have: what is longer is refused for its length, however much of it was read.
const ENOUGH: u64 = 1 << 16;

fn read(path: &OsStr) -> Result<Vec<u8>> {
    let mut bytes = Vec::new();
    File::open(path)?.take(ENOUGH).read_to_end(&mut bytes)?;
    Ok(bytes)
}

/// `told` has the line or lines about the file's bytes and the exit status. `usage` is the host's name and what its file is.
pub fn host(usage: &str, told: impl Fn(&[u8]) -> (String, u8)) -> ExitCode {
    let mut arguments = std::env::args_os().skip(1);
    let (Some(path), None) = (arguments.next(), arguments.next()) else {
        eprintln!("usage: {usage}");
        return ExitCode::from(LOST);
    };
    let bytes = match read(&path) {
        Ok(bytes) => bytes,
        Err(error) => {
            eprintln!("{}: {error}", path.to_string_lossy());
            return ExitCode::from(LOST);
        }
    };
    let (line, status) = told(&bytes);
    match writeln!(std::io::stdout(), "{line}") {
        Ok(()) => ExitCode::from(status),
        Err(error) => {
            eprintln!("the line can't be written: {error}");
            ExitCode::from(LOST)
        }
    }
}
