//! Where all that the command makes goes out: standard output, or a file. What cannot be written ends the command.

use crate::ending::Failure;
use crate::printable::printable;
use std::ffi::OsStr;
use std::fs::{self, File, Permissions};
use std::io::{self, BufWriter, Write};
use std::os::fd::AsFd;
use std::path::{Path, PathBuf};

/// Standard output. What was put is not out before [`Output::finish`].
pub struct Output {
    to: BufWriter<File>,
}

impl Output {
    pub fn standard() -> Result<Output, Failure> {
        // as a file, for std's own handle says nothing where standard output cannot be written at all
        let to = io::stdout().as_fd().try_clone_to_owned().map_err(unwritten)?;
        Ok(Output { to: BufWriter::new(to.into()) })
    }

    pub fn put(&mut self, bytes: &[u8]) -> Result<(), Failure> {
        self.to.write_all(bytes).map_err(unwritten)
    }

    /// All that was put is out.
    pub fn finish(&mut self) -> Result<(), Failure> {
        self.to.flush().map_err(unwritten)
    }
}

fn unwritten(error: io::Error) -> Failure {
    Failure::unwritten("to standard output", error)
}

/// A remark on standard error. That it cannot be written cannot be told anywhere else.
pub fn remarked(text: &str) {
    let _ = writeln!(io::stderr(), "gcr: {text}");
}

/// All of it to standard output.
pub fn written(bytes: &[u8]) -> Result<(), Failure> {
    let mut output = Output::standard()?;
    output.put(bytes)?;
    output.finish()
}

/// Whether a name stands for standard output.
pub fn is_standard(name: &OsStr) -> bool {
    ["-", "/dev/stdout", "/dev/fd/1", "/proc/self/fd/1"].iter().any(|each| name == *each)
}

/// Whether what goes to one of these names would take the place of what went to the other.
pub fn is_one_place(one: &OsStr, other: &OsStr) -> bool {
    (is_standard(one) && is_standard(other)) || place(Path::new(one)) == place(Path::new(other))
}

/// Where a file is, or would be.
fn place(path: &Path) -> PathBuf {
    let folder = path.parent().filter(|folder| !folder.as_os_str().is_empty()).unwrap_or(Path::new("."));
    let beside = || fs::canonicalize(folder).map(|folder| folder.join(path.file_name().unwrap_or_default()));
    fs::canonicalize(path).or_else(|_| beside()).unwrap_or_else(|_| path.into())
}

/// All of it to a file, or to standard output. A file that could not be written whole is as it was.
pub fn saved(to: &OsStr, bytes: &[u8]) -> Result<(), Failure> {
    if is_standard(to) {
        return written(bytes);
    }
    // where links lead
    let path = fs::canonicalize(to).unwrap_or_else(|_| to.into());
    let done = match fs::symlink_metadata(&path) {
        Ok(there) if there.is_file() => replaced(&path, Some(there.permissions()), bytes),
        // a device or a pipe is written to, and not replaced
        Ok(_) => File::create(&path).and_then(|mut file| file.write_all(bytes)),
        Err(_) => replaced(&path, None, bytes),
    };
    done.map_err(|error| Failure::unwritten(&printable(&to.to_string_lossy()), error))
}

/// By a file beside it that takes its place, and its permissions, when it is whole.
fn replaced(path: &Path, permissions: Option<Permissions>, bytes: &[u8]) -> io::Result<()> {
    if permissions.is_some() {
        File::options().write(true).open(path)?; // who may not write it may not replace it
    }
    let beside = beside(path);
    let mut file = File::create_new(&beside)?;
    let whole = file.write_all(bytes).and_then(|()| file.sync_all());
    let whole = whole.and_then(|()| permissions.map_or(Ok(()), |permissions| file.set_permissions(permissions)));
    let done = whole.and_then(|()| fs::rename(&beside, path));
    if done.is_err() {
        let _ = fs::remove_file(&beside);
    }
    done
}

fn beside(path: &Path) -> PathBuf {
    path.with_file_name(format!(".gcr.{}", std::process::id()))
}
