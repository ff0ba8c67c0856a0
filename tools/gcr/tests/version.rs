//! One version: that of the header, which the command tells, and both packages and the module in Python have.

mod support;

use support::{bytes, gcr};

/// What stands between these two in a file of the repository.
fn between(file: &str, before: &str, after: &str) -> String {
    let text = String::from_utf8(bytes(file)).expect("text");
    let (_, rest) = text.split_once(before).unwrap_or_else(|| panic!("{file} has no {before}"));
    let (version, _) = rest.split_once(after).expect("it ends");
    version.to_string()
}

fn header() -> String {
    between("include/gcr_reader.h", "#define GCR_VERSION \"", "\"")
}

#[test]
fn the_command_tells_the_version_of_the_header() {
    for word in ["--version", "-V", "version"] {
        assert_eq!(gcr(&[word]).done().text(), format!("gcr {}\n", header()), "{word}");
    }
    gcr(&["version", "3"]).ended(4, "it takes no file (gcr version --help tells more)");
}

#[test]
fn packages_and_module_have_the_version_of_the_header() {
    for (file, before) in [
        ("bindings/rust/Cargo.toml", "\nversion = \""),
        ("tools/gcr/Cargo.toml", "\nversion = \""),
        ("bindings/python/gcr.py", "\nVERSION = \""),
    ] {
        assert_eq!(between(file, before, "\""), header(), "{file}");
    }
}
