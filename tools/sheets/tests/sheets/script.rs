//! The script `dmarc` of the repository's root, as far as it comes without
//! building anything.

use std::process::{Command, Output};

use crate::stored::root;

fn dmarc(words: &[&str]) -> Output {
    let script = Command::new(root().join("dmarc")).args(words).output();
    script.expect("the script runs")
}

#[test]
fn help() {
    let help = dmarc(&["--help"]);
    assert_eq!(help.status.code(), Some(0));
    assert!(help.stdout.starts_with(b"usage:\n  ./dmarc FILE "));
    let said = String::from_utf8_lossy(&help.stdout).into_owned();
    for option in [
        "--explain FILE",
        "--json FILE",
        "--next FILE",
        "--status FILE",
        "--sheet FILE",
        "--write TAG=VALUE...",
        "--read TEXT",
    ] {
        assert!(said.contains(&format!("\n  ./dmarc {option} ")), "{option}");
    }
    assert!(help.stderr.is_empty());
}

/// Words, exit status, and the first line on standard error.
const MISUSES: &[(&[&str], i32, &str)] = &[
    (&[], 2, "dmarc: no file is named"),
    (&["--explain"], 2, "dmarc: no file is named"),
    (&["a", "b"], 2, "dmarc: more than one file is named"),
    (&["--sheets", "a"], 2, "dmarc: unknown option: --sheets"),
    (&["--read"], 2, "dmarc: no text is given"),
    (
        &["--read", "v=DMARC1;", "p=none"],
        2,
        "dmarc: more than one text is given; put it in quotes",
    ),
    (&["no such file"], 1, "dmarc: no such file: no such file"),
    (&["/"], 1, "dmarc: a directory, not a file: /"),
];

#[test]
fn misuses() {
    for (words, status, line) in MISUSES {
        let misuse = dmarc(words);
        assert_eq!(misuse.status.code(), Some(*status), "{words:?}");
        let said = String::from_utf8_lossy(&misuse.stderr).into_owned();
        assert_eq!(said.lines().next(), Some(*line));
        assert!(misuse.stdout.is_empty());
    }
}
