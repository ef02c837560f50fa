//! What the tests of the desk have in common.

#![forbid(unsafe_code)]

pub mod compiler;
pub mod header;
pub mod message;
pub mod readme;
pub mod script;
pub mod server;
pub mod zone;

use std::path::{Path, PathBuf};

/// The repository's root.
pub fn root() -> PathBuf {
    let root = Path::new(env!("CARGO_MANIFEST_DIR")).join("../..");
    root.canonicalize().expect("the repository's root")
}
