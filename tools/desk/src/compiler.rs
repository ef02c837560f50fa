//! The compilers of C and C++, and what is compiled for a test.

use crate::root;
use std::ffi::OsStr;
use std::path::PathBuf;
use std::process::Command;

/// What the header and the examples compile with, without a word.
pub const STRICT: [&str; 4] = ["-Wall", "-Wextra", "-Wpedantic", "-Werror"];

/// The proved archive.
pub fn archive() -> PathBuf {
    let archive = root().join("target/lib/libwaslidhaj.a");
    let shown = archive.display();
    assert!(archive.is_file(), "{shown} is missing: run ./library first");
    archive
}

/// Runs a compiler at the repository's root, as strict as can be.
pub fn compile<Word: AsRef<OsStr>>(compiler: &str, standard: &str, words: &[Word]) {
    let ran = Command::new(compiler)
        .arg(format!("-std={standard}"))
        .args(STRICT)
        .arg("-Iinclude")
        .args(words)
        .current_dir(root())
        .output();
    let ran = ran.unwrap_or_else(|error| panic!("{compiler} cannot be run: {error}"));
    let said = String::from_utf8_lossy(&ran.stderr);
    assert!(ran.status.success(), "{compiler} -std={standard}:\n{said}");
}
