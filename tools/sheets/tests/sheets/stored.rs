//! The files of cases: what a program of the repository has beside it, and how
//! such a file is read.

use std::path::PathBuf;

use sheets::programs::cases::Files;

/// The repository's root.
pub fn root() -> PathBuf {
    PathBuf::from(env!("CARGO_MANIFEST_DIR")).join("../..")
}

/// Checks the files that a program has beside it.
pub fn check_stored(program: &str, files: Result<Files, String>) {
    let files = files.expect("cases that fit their lengths");
    for (name, octets) in [("stdin", &files.cases), ("stdout", &files.expected)] {
        let file = root().join("crates").join(program).join(name);
        let stored = std::fs::read(file).expect("a stored file");
        assert!(stored == *octets, "crates/{program}/{name}");
    }
}

/// Kind and body of each case.
pub fn bodies(octets: &[u8]) -> Vec<(u8, &[u8])> {
    let mut rest = octets;
    let mut bodies = Vec::new();
    while let [kind, high, low, after @ ..] = rest {
        let length = 256 * usize::from(*high) + usize::from(*low);
        let (body, next) = after.split_at(length);
        bodies.push((*kind, body));
        rest = next;
    }
    assert!(rest.is_empty(), "octets left over");
    bodies
}
