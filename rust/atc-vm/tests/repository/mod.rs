//! The repository's files, for the tests that hold them to each other.

use std::fs;
use std::path::{Path, PathBuf};

pub fn path(within: &str) -> PathBuf {
    Path::new(env!("CARGO_MANIFEST_DIR"))
        .join("../..")
        .join(within)
}

pub fn text(within: &str) -> String {
    let path = path(within);
    fs::read_to_string(&path).unwrap_or_else(|error| panic!("{}: {error}", path.display()))
}
