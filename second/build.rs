//! Links the proved side's static libraries, where the feature `linked` asks for them.

use std::env;
use std::path::{Path, PathBuf};

fn main() {
    println!("cargo:rerun-if-env-changed=SECOND_STATICLIB");
    if env::var_os("CARGO_FEATURE_LINKED").is_some() {
        link(&library_folder());
    }
}

fn library_folder() -> PathBuf {
    let here = PathBuf::from(env::var_os("CARGO_MANIFEST_DIR").expect("cargo sets it"));
    match env::var_os("SECOND_STATICLIB") {
        Some(folder) => here.join(folder),
        None => here.join("../target/staticlib"),
    }
}

fn link(folder: &Path) {
    println!("cargo:rustc-link-search=native={}", folder.display());
    for library in ["gcr", "gcr_reader"] {
        println!("cargo:rerun-if-changed={}", folder.join(format!("lib{library}.a")).display());
        println!("cargo:rustc-link-lib=static:-bundle={library}");
    }
    // An archive may carry its own panic handler beside ours.
    println!("cargo:rustc-link-arg=-Wl,--allow-multiple-definition");
}
