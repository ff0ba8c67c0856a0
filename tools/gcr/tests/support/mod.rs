//! Running the command as people do.
#![allow(dead_code)] // each test takes what it needs

pub mod folder;
pub mod helps;
pub mod json;
mod ran;

pub use ran::Ran;

use std::ffi::OsStr;
use std::fs;
use std::path::{Path, PathBuf};
use std::process::{Command, Stdio};

/// The repository, where the shipped records have the names that people type.
pub fn root() -> PathBuf {
    Path::new(env!("CARGO_MANIFEST_DIR")).join("../..")
}

/// With these words, at the root.
pub fn gcr(words: &[impl AsRef<OsStr>]) -> Ran {
    piped(words, b"")
}

/// With this on standard input.
pub fn piped(words: &[impl AsRef<OsStr>], input: &[u8]) -> Ran {
    run(words, input, Stdio::piped())
}

/// With standard output on a device that is always full.
pub fn to_full_device(words: &[impl AsRef<OsStr>]) -> Ran {
    to_device("/dev/full", words)
}

/// With standard output on this device.
pub fn to_device(device: &str, words: &[impl AsRef<OsStr>]) -> Ran {
    run(words, b"", fs::File::options().read(true).write(true).open(device).expect("there is one"))
}

/// With standard output on a pipe that nobody reads.
pub fn to_closed_pipe(words: &[impl AsRef<OsStr>]) -> Ran {
    let (reader, writer) = std::io::pipe().expect("there is a pipe");
    drop(reader);
    run(words, b"", writer)
}

fn run(words: &[impl AsRef<OsStr>], input: &[u8], output: impl Into<Stdio>) -> Ran {
    let mut command = Command::new(env!("CARGO_BIN_EXE_gcr"));
    Ran::of(command.args(words).current_dir(root()).stdout(output), input)
}

/// By a shell at the root, with `gcr` on its path.
pub fn shell(line: &str) -> Ran {
    shell_in(&root(), line)
}

/// The same in another folder.
pub fn shell_in(at: &Path, line: &str) -> Ran {
    by_shell("sh", at, line)
}

/// The same by this shell.
pub fn by_shell(shell: &str, at: &Path, line: &str) -> Ran {
    let folder = Path::new(env!("CARGO_BIN_EXE_gcr")).parent().expect("it is in a folder");
    let path = format!("{}:{}", folder.display(), std::env::var("PATH").unwrap_or_default());
    let mut command = Command::new(shell);
    Ran::of(command.arg("-c").arg(line).env("PATH", path).current_dir(at).stdout(Stdio::piped()), b"")
}

/// The bytes of a file of the repository, by its name from the root.
pub fn bytes(name: &str) -> Vec<u8> {
    fs::read(root().join(name)).unwrap_or_else(|error| panic!("{name}: {error}"))
}

/// The names and bytes of the records that ship.
pub fn shipped() -> Vec<(String, Vec<u8>)> {
    let files = fs::read_dir(root().join("records")).unwrap().map(|entry| entry.unwrap().file_name());
    let names = files.map(|name| name.into_string().expect("a name of letters"));
    let mut records: Vec<String> =
        names.filter(|name| name.ends_with(".gcr")).map(|name| format!("records/{name}")).collect();
    records.sort();
    assert!(records.len() >= 18, "{records:?}");
    records.into_iter().map(|name| (name.clone(), bytes(&name))).collect()
}
