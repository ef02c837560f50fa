//! A program run with words and an input.

use std::io::Write;
use std::process::{Command, Output, Stdio};

/// Runs a program to its end.
pub fn output(path: &str, words: &[&str], input: &[u8]) -> Output {
    let mut child = Command::new(path)
        .args(words)
        .stdin(Stdio::piped())
        .stdout(Stdio::piped())
        .stderr(Stdio::piped())
        .spawn()
        .expect("the program starts");
    let mut stdin = child.stdin.take().expect("standard input");
    stdin.write_all(input).expect("written");
    drop(stdin);
    child.wait_with_output().expect("the program ends")
}
