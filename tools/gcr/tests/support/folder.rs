//! A folder of its own for a test, gone when it ends.

use super::root;
use std::fs;
use std::os::unix::fs::symlink;
use std::path::{Path, PathBuf};
use std::sync::atomic::{AtomicUsize, Ordering};

pub struct Folder {
    path: PathBuf,
}

static MADE: AtomicUsize = AtomicUsize::new(0);

impl Folder {
    pub fn new() -> Folder {
        let number = MADE.fetch_add(1, Ordering::Relaxed);
        let path = Path::new(env!("CARGO_TARGET_TMPDIR")).join(format!("{}-{number}", std::process::id()));
        fs::create_dir_all(&path).unwrap();
        Folder { path }
    }

    /// Where these of the repository have the names that they have at its root.
    pub fn with(names: &[&str]) -> Folder {
        let folder = Folder::new();
        for name in names {
            symlink(root().join(name).canonicalize().unwrap(), folder.path.join(name)).unwrap();
        }
        folder
    }

    pub fn path(&self) -> &Path {
        &self.path
    }

    /// Where a file of this name is, or would be.
    pub fn at(&self, name: &str) -> String {
        self.path.join(name).into_os_string().into_string().expect("a path of letters")
    }

    /// A file of this name, written.
    pub fn file(&self, name: &str, bytes: impl AsRef<[u8]>) -> String {
        let path = self.at(name);
        fs::write(&path, bytes).unwrap();
        path
    }

    /// All that is in it, by name.
    pub fn names(&self) -> Vec<String> {
        let names = fs::read_dir(&self.path).unwrap().map(|entry| entry.unwrap().file_name());
        let mut names: Vec<String> = names.map(|name| name.into_string().expect("a name of letters")).collect();
        names.sort();
        names
    }
}

impl Drop for Folder {
    fn drop(&mut self) {
        let _ = fs::remove_dir_all(&self.path);
    }
}
