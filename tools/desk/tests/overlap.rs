//! Lent memory that overlaps, from C: whatever is lent, each call gives and leaves
//! what it does with memory that is apart, and NULL may be lent with length 0.

use std::path::Path;
use std::process::Command;

use desk::compiler::{archive, compile};
use desk::root;

/// Compilers by the language and the level of optimization.
const COMPILERS: [(&str, &str, [&str; 3]); 3] = [
    ("gcc", "c99", ["-O0", "-x", "c"]),
    ("gcc", "c17", ["-O2", "-x", "c"]),
    ("g++", "c++17", ["-O2", "-x", "c++"]),
];

#[test]
fn overlapping_memory_is_as_memory_apart() {
    for (compiler, standard, options) in COMPILERS {
        let program = Path::new(env!("CARGO_TARGET_TMPDIR")).join(format!("overlap-{standard}"));
        let source = root().join("tools/desk/tests/overlap/overlap.c");
        let mut words: Vec<&Path> = options.iter().map(Path::new).collect();
        let archive = archive();
        words.extend([source.as_path(), "-x".as_ref(), "none".as_ref()]);
        words.extend([archive.as_path(), "-o".as_ref(), &program]);
        compile(compiler, standard, &words);
        let ran = Command::new(&program).output().expect("the program runs");
        let printed = String::from_utf8_lossy(&ran.stdout);
        assert!(
            ran.status.success(),
            "{standard}: {}: {printed}",
            ran.status
        );
        let expected = "235716 calls, all the same\n\
                        26242 calls with readers, all the same\n";
        assert_eq!(printed, expected, "{standard}");
    }
}
