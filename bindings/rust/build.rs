//! Links the proved libraries: those of the package that this is in, or the repository's, which are built first where one
//! is missing or older than its sources. `RIZHAKKON_LIB` names another folder to take them from, as they are.

use std::env;
use std::fs;
use std::path::{Path, PathBuf};
use std::process::Command;

const FOLDER: &str = "RIZHAKKON_LIB";
const LIBRARIES: [&str; 2] = ["gcr", "gcr_reader"];

fn main() {
    println!("cargo:rerun-if-env-changed={FOLDER}");
    let here = PathBuf::from(env::var_os("CARGO_MANIFEST_DIR").expect("cargo sets it"));
    let folder = match env::var_os(FOLDER) {
        Some(folder) => here.join(folder),
        None => own(&here.join("../..")),
    };
    println!("cargo:rustc-link-search=native={}", folder.display());
    for library in LIBRARIES {
        link(&archive(&folder, library), library);
    }
}

fn archive(folder: &Path, library: &str) -> PathBuf {
    folder.join(format!("lib{library}.a"))
}

/// The package's folder of archives where this is in one, else the repository's.
fn own(root: &Path) -> PathBuf {
    let packaged = root.join("lib");
    match LIBRARIES.iter().all(|library| archive(&packaged, library).exists()) {
        true => packaged,
        false => built(root),
    }
}

/// The repository's folder of archives, filled anew where something is missing or older than its sources. No judge of
/// other sources is linked: where they cannot be built, this ends with the reason.
fn built(root: &Path) -> PathBuf {
    let named = ["crates.txt", "tools/library", "tools/outdated"].map(|name| root.join(name));
    for source in named.into_iter().chain(sources(&root.join("crates"))) {
        println!("cargo:rerun-if-changed={}", source.display());
    }
    let mut command = Command::new("bash");
    let run = command.arg("tools/library").current_dir(root).output().expect("bash runs");
    let said = String::from_utf8_lossy(&run.stdout);
    assert!(run.status.success(), "bash tools/library failed:\n{said}{}", String::from_utf8_lossy(&run.stderr));
    root.join("target/staticlib")
}

/// The crates' folders of sources. Beside them lies what rt keeps, which is none.
fn sources(crates: &Path) -> Vec<PathBuf> {
    let crates = fs::read_dir(crates).expect("the crates are there").flatten();
    let parts = crates.flat_map(|each| ["src", "specs", "proofs"].map(|part| each.path().join(part)));
    parts.filter(|part| part.is_dir()).collect()
}

/// Unbundled, so that the archive is read once, by the final link.
fn link(archive: &Path, library: &str) {
    assert!(archive.exists(), "no {} to link; {FOLDER} may name the folder that has it", archive.display());
    println!("cargo:rerun-if-changed={}", archive.display());
    println!("cargo:rustc-link-lib=static:-bundle={library}");
}
